//! The rules of a sheet, and the filters over it.
use ulyptesh::calls::{Sheet, SheetHead, answer_of};
use ulyptesh::{Chroma, Engine, Settings};

#[expect(improper_ctypes, reason = "the settings are those of the C header, whatever is added to them")]
unsafe extern "C" {
    /// Whether a sheet was made for this call.
    pub safe fn probe_sheet_matches(settings: Settings, head: SheetHead) -> bool;

    fn probe_well_formed(
        head: SheetHead,
        window: *const f32,
        window_count: usize,
        coefficients: *const f32,
        coefficient_count: usize,
        weights: *const f32,
        weight_count: usize,
        lengths: *const u32,
        length_count: usize,
        constant_q_coefficients: *const f32,
        constant_q_coefficient_count: usize,
        windows: *const f32,
        windows_count: usize,
    ) -> bool;

    fn probe_magnitudes(
        engine: u32,
        samples: *const f32,
        sample_count: usize,
        start: usize,
        window: *const f32,
        window_count: usize,
        coefficients: *const f32,
        coefficient_count: usize,
        room: *mut f32,
        room_count: usize,
    ) -> bool;

    fn probe_goertzel(
        answer: *mut Chroma,
        engine: u32,
        lowest: u8,
        samples: *const f32,
        sample_count: usize,
        start: usize,
        window: *const f32,
        window_count: usize,
        coefficients: *const f32,
        coefficient_count: usize,
        weights: *const f32,
        weight_count: usize,
    ) -> *mut Chroma;

    fn probe_constant_q(
        answer: *mut Chroma,
        lowest: u8,
        samples: *const f32,
        sample_count: usize,
        centre: usize,
        lengths: *const u32,
        length_count: usize,
        coefficients: *const f32,
        coefficient_count: usize,
        windows: *const f32,
        windows_count: usize,
    ) -> *mut Chroma;
}

/// Whether every rule of the sheet holds.
pub fn well_formed(sheet: &Sheet) -> bool {
    // SAFETY: each pointer and its count are one slice, which outlives the call.
    unsafe {
        probe_well_formed(
            sheet.head,
            sheet.window.as_ptr(),
            sheet.window.len(),
            sheet.goertzel_coefficients.as_ptr(),
            sheet.goertzel_coefficients.len(),
            sheet.goertzel_weights.as_ptr(),
            sheet.goertzel_weights.len(),
            sheet.constant_q_lengths.as_ptr(),
            sheet.constant_q_lengths.len(),
            sheet.constant_q_coefficients.as_ptr(),
            sheet.constant_q_coefficients.len(),
            sheet.constant_q_windows.as_ptr(),
            sheet.constant_q_windows.len(),
        )
    }
}

/// Writes the magnitudes of all rows from the front of the room; false, and nothing is written, where the frame is not on
/// the track, the room is too short, or there are more than 256 rows.
pub fn magnitudes(
    engine: Engine,
    window: &[f32],
    coefficients: &[f32],
    samples: &[f32],
    start: usize,
    room: &mut [f32],
) -> bool {
    // SAFETY: each pointer and its count are one slice, which outlives the call; the room overlaps no other.
    unsafe {
        probe_magnitudes(
            engine.0,
            samples.as_ptr(),
            samples.len(),
            start,
            window.as_ptr(),
            window.len(),
            coefficients.as_ptr(),
            coefficients.len(),
            room.as_mut_ptr(),
            room.len(),
        )
    }
}

/// The Goertzel chroma of the frame that starts at `start`; zeros where it is not on the track.
pub fn goertzel(engine: Engine, sheet: &Sheet, samples: &[f32], start: usize) -> Chroma {
    // SAFETY: each pointer and its count are one slice, which outlives the call; the call writes its whole answer.
    unsafe {
        answer_of(|answer| {
            probe_goertzel(
                answer,
                engine.0,
                sheet.head.minimum_midi_note,
                samples.as_ptr(),
                samples.len(),
                start,
                sheet.window.as_ptr(),
                sheet.window.len(),
                sheet.goertzel_coefficients.as_ptr(),
                sheet.goertzel_coefficients.len(),
                sheet.goertzel_weights.as_ptr(),
                sheet.goertzel_weights.len(),
            )
        })
    }
}

/// The constant-Q chroma around a centre; zeros where it is not on the track.
pub fn constant_q(sheet: &Sheet, samples: &[f32], centre: usize) -> Chroma {
    // SAFETY: each pointer and its count are one slice, which outlives the call; the call writes its whole answer.
    unsafe {
        answer_of(|answer| {
            probe_constant_q(
                answer,
                sheet.head.minimum_midi_note,
                samples.as_ptr(),
                samples.len(),
                centre,
                sheet.constant_q_lengths.as_ptr(),
                sheet.constant_q_lengths.len(),
                sheet.constant_q_coefficients.as_ptr(),
                sheet.constant_q_coefficients.len(),
                sheet.constant_q_windows.as_ptr(),
                sheet.constant_q_windows.len(),
            )
        })
    }
}
