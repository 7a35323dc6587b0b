//! The table sheet that a call reads.
use crate::settings::Settings;

/// What a sheet states about itself: what it was made for.
#[repr(C)]
#[derive(Debug, Clone, Copy, PartialEq, Eq)]
pub struct SheetHead {
    /// Samples a second.
    pub rate: u32,
    /// The lowest note.
    pub minimum_midi_note: u8,
    /// The highest note.
    pub maximum_midi_note: u8,
    /// Samples in a frame.
    pub frame_size: usize,
}

/// A table sheet: the tables for one rate, note range and frame size. Row k of either kind is for the lowest note
/// plus k.
#[derive(Debug, Clone, PartialEq)]
pub struct Sheet {
    /// What it was made for.
    pub head: SheetHead,
    /// The window of a frame.
    pub window: Vec<f32>,
    /// A coefficient for each Goertzel row.
    pub goertzel_coefficients: Vec<f32>,
    /// A weight for each Goertzel row.
    pub goertzel_weights: Vec<f32>,
    /// The length of each constant-Q row's window.
    pub constant_q_lengths: Vec<u32>,
    /// A coefficient for each constant-Q row.
    pub constant_q_coefficients: Vec<f32>,
    /// The rows' windows, joined end to end.
    pub constant_q_windows: Vec<f32>,
}

impl Sheet {
    /// A sheet without tables, for calls that end before the library looks at them.
    pub(crate) fn empty(settings: &Settings) -> Self {
        Self {
            head: settings.head(),
            window: vec![],
            goertzel_coefficients: vec![],
            goertzel_weights: vec![],
            constant_q_lengths: vec![],
            constant_q_coefficients: vec![],
            constant_q_windows: vec![],
        }
    }
}
