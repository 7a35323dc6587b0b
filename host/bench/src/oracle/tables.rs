//! Sheets filled from the oracle's tables, each beside those tables.
use super::key_lime::KeyConfig;
use super::key_lime::expose::{ConstantQ, Goertzel, apply_window, hanning_window};
use ulyptesh::Chroma;
use ulyptesh::calls::{Sheet, SheetHead};

/// The oracle's tables, and the sheet made from them.
pub struct Tables {
    pub sheet: Sheet,
    goertzel: Goertzel,
    constant_q: ConstantQ,
}

impl Tables {
    pub fn new(head: SheetHead) -> Self {
        let SheetHead { rate, minimum_midi_note, maximum_midi_note, .. } = head;
        let constant_q = ConstantQ::new(rate, minimum_midi_note, maximum_midi_note);
        Self::with(head, goertzel(head), constant_q)
    }

    /// Goertzel rows alone, with these coefficients.
    pub fn of_goertzel(head: SheetHead, coefficients: &[f32]) -> Self {
        let no_rows = ConstantQ::new(head.rate, 1, 0);
        Self::with(head, goertzel(head).with_coefficients(coefficients), no_rows)
    }

    fn with(head: SheetHead, goertzel: Goertzel, constant_q: ConstantQ) -> Self {
        Self { sheet: filled(head, &goertzel, &constant_q), goertzel, constant_q }
    }

    /// The oracle's Goertzel chroma of the frame that starts at `start`.
    pub fn goertzel(&self, samples: &[f32], start: usize) -> Chroma {
        let frame = &samples[start..start + self.sheet.head.frame_size];
        let mut windowed = vec![0.0; frame.len()];
        apply_window(frame, &self.sheet.window, &mut windowed);
        let mut chroma = [0.0; 12];
        self.goertzel.accumulate(&windowed, &mut chroma);
        chroma
    }

    /// The oracle's constant-Q chroma around a centre.
    pub fn constant_q(&self, samples: &[f32], centre: usize) -> Chroma {
        self.constant_q.chroma_at(samples, centre)
    }
}

fn goertzel(head: SheetHead) -> Goertzel {
    let SheetHead { rate, minimum_midi_note, maximum_midi_note, frame_size } = head;
    let config = KeyConfig { frame_size, minimum_midi_note, maximum_midi_note, ..KeyConfig::default() };
    Goertzel::new(rate, config)
}

/// The sheet; row k has to be for the lowest note plus k.
fn filled(head: SheetHead, goertzel: &Goertzel, constant_q: &ConstantQ) -> Sheet {
    let rows = goertzel.rows();
    let constant_q_rows = constant_q.rows();
    let mut notes = rows.iter().map(|row| row.midi_note).zip(head.minimum_midi_note..);
    assert!(notes.all(|(note, wanted)| note == wanted), "a Goertzel row is for another note");
    let mut notes = constant_q_rows.iter().map(|row| row.0).zip(head.minimum_midi_note..);
    assert!(notes.all(|(note, wanted)| note == wanted), "a constant-Q row is for another note");
    Sheet {
        head,
        window: hanning_window(head.frame_size),
        goertzel_coefficients: rows.iter().map(|row| row.coefficient).collect(),
        goertzel_weights: rows.iter().map(|row| row.weight).collect(),
        constant_q_lengths: constant_q_rows.iter().map(|row| row.2 as u32).collect(),
        constant_q_coefficients: constant_q_rows.iter().map(|row| row.3).collect(),
        constant_q_windows: constant_q_rows.iter().flat_map(|row| row.4.iter().copied()).collect(),
    }
}
