//! The oracle's magnitudes of rows over one frame, as its chroma has them.
use super::key_lime::expose::{apply_window, goertzel_power_batch_4, goertzel_power_prewindowed};

/// Four rows at a time, and the odd ones at the end singly.
pub fn magnitudes(window: &[f32], coefficients: &[f32], frame: &[f32]) -> Vec<f32> {
    let mut windowed = vec![0.0; frame.len()];
    apply_window(frame, window, &mut windowed);
    let (fours, odd) = coefficients.as_chunks();
    let batches = fours.iter().flat_map(|&four| goertzel_power_batch_4(&windowed, four));
    let single = odd.iter().map(|&coefficient| goertzel_power_prewindowed(&windowed, coefficient));
    batches.chain(single).map(f32::sqrt).collect()
}
