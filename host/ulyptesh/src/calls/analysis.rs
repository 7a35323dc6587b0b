//! The whole analysis of a track in one call, over lent memory.
use super::PITCH_CLASSES;
use super::by_pointer::answer_of;
use super::rows::Buffers;
use super::sheet::{Sheet, SheetHead};
use crate::settings::Settings;

/// The library's answer: 0 or a refusal, of which 9 names a frame position. A missing key is 24. The counts tell how
/// many rows of each kind are written.
#[repr(C)]
#[derive(Debug, Clone, Copy, PartialEq)]
pub struct AnalyseResult {
    /// 0, or the number of a refusal.
    pub refusal: u32,
    /// Of the frame that refusal 9 is about, else 0.
    pub position: u64,
    /// The key that is reported.
    pub key: u32,
    /// The key by profiles alone, which is the same.
    pub dsp_key: u32,
    /// Another key that much of the track is in.
    pub alternate: u32,
    /// The part of the track that is in the alternate, or 0.
    pub coverage: f32,
    /// Of the key, from 0 to 1.
    pub confidence: f32,
    /// 1 where the track's chroma has no shape, else 0, as without a key.
    pub shapeless: u32,
    /// How many frame rows are written.
    pub frames: u64,
    /// How many estimate rows are written.
    pub estimates: u64,
    /// How many segment rows are written.
    pub segments: u64,
    /// Of the whole track.
    pub chroma: [f32; PITCH_CLASSES],
}

unsafe extern "C" {
    fn ulyptesh_analyse(
        answer: *mut AnalyseResult,
        settings: Settings,
        head: SheetHead,
        samples: *const f32,
        sample_count: usize,
        window: *const f32,
        window_count: usize,
        coefficients: *const f32,
        coefficient_count: usize,
        weights: *const f32,
        weight_count: usize,
        lengths: *const u32,
        length_count: usize,
        constant_q_coefficients: *const f32,
        constant_q_coefficient_count: usize,
        windows: *const f32,
        windows_count: usize,
        centres: *mut f64,
        centre_count: usize,
        values: *mut [f32; PITCH_CLASSES],
        value_count: usize,
        energies: *mut f32,
        energy_count: usize,
        work: *mut f32,
        work_count: usize,
        middles: *mut f64,
        middle_count: usize,
        numbers: *mut u8,
        number_count: usize,
        certainties: *mut f32,
        certainty_count: usize,
        shapeless: *mut u8,
        shapeless_count: usize,
        starts: *mut f64,
        start_count: usize,
        ends: *mut f64,
        end_count: usize,
        keys: *mut u8,
        key_count: usize,
        confidences: *mut f32,
        confidence_count: usize,
        counts: *mut u32,
        count_count: usize,
    ) -> *mut AnalyseResult;
}

/// Analyses a track: loud frames, estimates and segments stand at the front of their rows. Segment rows that joining
/// has emptied hold zeros, as do the work numbers that were used; all other rows stay.
pub fn analyse(settings: Settings, sheet: &Sheet, samples: &[f32], lent: &mut Buffers) -> AnalyseResult {
    let Buffers { frames, work, estimates, segments } = lent;
    // SAFETY: each pointer and its count are one slice, which outlives the call; what is lent is exclusive, and
    // the call writes its whole answer.
    unsafe {
        answer_of(|answer| {
            ulyptesh_analyse(
                answer,
                settings,
                sheet.head,
                samples.as_ptr(),
                samples.len(),
                sheet.window.as_ptr(),
                sheet.window.len(),
                sheet.goertzel_coefficients.as_ptr(),
                sheet.goertzel_coefficients.len(),
                sheet.goertzel_weights.as_ptr(),
                sheet.goertzel_weights.len(),
                sheet.constant_q_lengths.as_ptr(),
                sheet.constant_q_lengths.len(),
                sheet.constant_q_coefficients.as_ptr(),
                sheet.constant_q_coefficients.len(),
                sheet.constant_q_windows.as_ptr(),
                sheet.constant_q_windows.len(),
                frames.centres.as_mut_ptr(),
                frames.centres.len(),
                frames.values.as_mut_ptr(),
                frames.values.len(),
                frames.energies.as_mut_ptr(),
                frames.energies.len(),
                work.as_mut_ptr(),
                work.len(),
                estimates.middles.as_mut_ptr(),
                estimates.middles.len(),
                estimates.numbers.as_mut_ptr(),
                estimates.numbers.len(),
                estimates.certainties.as_mut_ptr(),
                estimates.certainties.len(),
                estimates.shapeless.as_mut_ptr(),
                estimates.shapeless.len(),
                segments.starts.as_mut_ptr(),
                segments.starts.len(),
                segments.ends.as_mut_ptr(),
                segments.ends.len(),
                segments.keys.as_mut_ptr(),
                segments.keys.len(),
                segments.confidences.as_mut_ptr(),
                segments.confidences.len(),
                segments.counts.as_mut_ptr(),
                segments.counts.len(),
            )
        })
    }
}
