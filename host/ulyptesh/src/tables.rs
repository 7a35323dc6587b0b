//! Makes the table sheet of a call, by the formulas of the Rust's tables.
use crate::calls::Sheet;
use crate::settings::Settings;
use std::f32::consts::PI;

/// A note has a row where its frequency is below this part of the rate.
const HIGHEST_PART: f32 = 0.45;

/// The shortest constant-Q window.
const SHORTEST_WINDOW: usize = 4;

fn frequency(note: u8) -> f32 {
    440.0 * 2.0_f32.powf((f32::from(note) - 69.0) / 12.0)
}

/// The window of a frame: it begins and ends at 0.
fn frame_window(size: usize) -> Vec<f32> {
    let last = size.saturating_sub(1).max(1) as f32;
    (0..size).map(|place| 0.5 - 0.5 * (2.0 * PI * place as f32 / last).cos()).collect()
}

/// The window of a note: it begins at 0, and the next one would.
fn note_window(length: usize) -> impl Iterator<Item = f32> {
    (0..length).map(move |place| 0.5 * (1.0 - (2.0 * PI * place as f32 / length as f32).cos()))
}

/// The length of a note's window: so many periods that semitones are told apart, and at most a second.
fn window_length(rate: u32, frequency: f32) -> usize {
    let periods = 1.0 / (2.0_f32.powf(1.0 / 12.0) - 1.0);
    let length = (periods * rate as f32 / frequency).ceil() as usize;
    length.min(rate as usize)
}

impl Sheet {
    /// The sheet for calls with these settings.
    ///
    /// # Panics
    /// Where so much memory can't be had.
    pub fn for_call(settings: &Settings) -> Self {
        let Settings { rate, minimum_midi_note, maximum_midi_note, frame_size, .. } = *settings;
        let notes = (minimum_midi_note..=maximum_midi_note).map(frequency);
        let low: Vec<f32> = notes.take_while(|&hertz| hertz < rate as f32 * HIGHEST_PART).collect();
        let long: Vec<(f32, usize)> = low
            .iter()
            .map(|&hertz| (hertz, window_length(rate, hertz)))
            .filter(|&(_, length)| length >= SHORTEST_WINDOW)
            .collect();
        Self {
            head: settings.head(),
            window: frame_window(frame_size),
            goertzel_coefficients: low
                .iter()
                .map(|hertz| 2.0 * (2.0 * PI * hertz / rate as f32).cos())
                .collect(),
            goertzel_weights: low.iter().map(|hertz| 1.0 / hertz.sqrt()).collect(),
            constant_q_lengths: long.iter().map(|&(_, length)| length as u32).collect(),
            constant_q_coefficients: long
                .iter()
                .map(|(hertz, _)| 2.0 * (2.0 * PI * (hertz / rate as f32)).cos())
                .collect(),
            constant_q_windows: long.iter().flat_map(|&(_, length)| note_window(length)).collect(),
        }
    }
}
