//! The twelve weighted medians of a track's frames beside the oracle's way: microseconds for one call.
use crate::SEED;
use crate::rounds::{Pair, header};
use bench::inputs::chromas::{draws, uniform};
use bench::inputs::random::patterns;
use bench::oracle::key_lime::expose::compute_onset_weights;
use bench::probe::weighted_medians;
use std::array;

/// The frames of four minutes.
const FRAMES: usize = 5_166;

/// Nanoseconds of a microsecond.
const MICRO: usize = 1_000;

/// What `analyze` does between the frames and the tuning.
fn theirs(frames: &[[f32; 12]], energies: &[f32]) -> [f32; 12] {
    let weights = compute_onset_weights(energies);
    array::from_fn(|bin| {
        let mut values: Vec<f32> =
            frames.iter().zip(&weights).map(|(frame, weight)| frame[bin] * weight).collect();
        *values.select_nth_unstable_by(FRAMES / 2, f32::total_cmp).1
    })
}

fn ours(frames: &[[f32; 12]], energies: &[f32]) -> [f32; 12] {
    weighted_medians(frames, energies, &mut vec![0.0; FRAMES], FRAMES)
}

pub fn print_row() {
    let frames: Vec<[f32; 12]> = draws(SEED, 5).map(uniform).take(FRAMES).collect();
    let energies: Vec<f32> =
        patterns(SEED, 6).take(FRAMES).map(|pattern| (pattern >> 40) as f32 / 16_777_216.0).collect();
    assert_eq!(ours(&frames, &energies), theirs(&frames, &energies));
    header("us for twelve weighted medians", "oracle");
    Pair::of_steps(MICRO, &[()], |()| ours(&frames, &energies)[0], |()| theirs(&frames, &energies)[0])
        .print("5,166 frames");
}
