//! The loud frames of a track, written by the library into lent rows.
use super::PITCH_CLASSES;
use super::by_pointer::answer_of;
use super::rows::FrameRows;
use super::sheet::{Sheet, SheetHead};
use crate::settings::Settings;

/// The library's answer: 0 and how many rows were written, or a refusal; 9 names the frame position.
#[repr(C)]
#[derive(Debug, Clone, Copy, PartialEq, Eq)]
pub struct FramesResult {
    /// 0, or the number of a refusal.
    pub refusal: u32,
    /// Of the frame that refusal 9 is about, else 0.
    pub position: u64,
    /// How many rows are written.
    pub count: u64,
}

unsafe extern "C" {
    fn ulyptesh_frames(
        answer: *mut FramesResult,
        settings: Settings,
        head: SheetHead,
        samples: *const f32,
        sample_count: usize,
        window: *const f32,
        window_count: usize,
        coefficients: *const f32,
        coefficient_count: usize,
        weights: *const f32,
        weight_count: usize,
        lengths: *const u32,
        length_count: usize,
        constant_q_coefficients: *const f32,
        constant_q_coefficient_count: usize,
        windows: *const f32,
        windows_count: usize,
        centres: *mut f64,
        centre_count: usize,
        values: *mut [f32; PITCH_CLASSES],
        value_count: usize,
        energies: *mut f32,
        energy_count: usize,
    ) -> *mut FramesResult;
}

/// Writes the loud frames to the front of the rows, as the library answers it; the rows behind them stay.
pub fn frames(settings: Settings, sheet: &Sheet, samples: &[f32], rows: &mut FrameRows) -> FramesResult {
    // SAFETY: each pointer and its count are one slice, which outlives the call; the rows are exclusive, and
    // the call writes its whole answer.
    unsafe {
        answer_of(|answer| {
            ulyptesh_frames(
                answer,
                settings,
                sheet.head,
                samples.as_ptr(),
                samples.len(),
                sheet.window.as_ptr(),
                sheet.window.len(),
                sheet.goertzel_coefficients.as_ptr(),
                sheet.goertzel_coefficients.len(),
                sheet.goertzel_weights.as_ptr(),
                sheet.goertzel_weights.len(),
                sheet.constant_q_lengths.as_ptr(),
                sheet.constant_q_lengths.len(),
                sheet.constant_q_coefficients.as_ptr(),
                sheet.constant_q_coefficients.len(),
                sheet.constant_q_windows.as_ptr(),
                sheet.constant_q_windows.len(),
                rows.centres.as_mut_ptr(),
                rows.centres.len(),
                rows.values.as_mut_ptr(),
                rows.values.len(),
                rows.energies.as_mut_ptr(),
                rows.energies.len(),
            )
        })
    }
}
