//! Tracks from a seed: one kind for each thing that may go wrong in a filter.
use bench::inputs::chromas::unit;
use bench::inputs::random::patterns;
use std::f32::consts::PI;

/// A kind of track: each sample from its place and a random pattern.
#[derive(Clone, Copy)]
pub struct TrackKind {
    pub name: &'static str,
    sample: fn(usize, u64) -> f32,
}

pub const KINDS: [TrackKind; 9] = [
    TrackKind { name: "noise", sample: noise },
    TrackKind { name: "tones", sample: tones },
    TrackKind { name: "silence", sample: |_, _| 0.0 },
    TrackKind { name: "silence with the minus sign", sample: |_, _| -0.0 },
    TrackKind { name: "NaNs", sample: |_, pattern| strewn(f32::NAN, pattern) },
    TrackKind {
        name: "infinities",
        sample: |_, pattern| strewn(f32::INFINITY.copysign(noise(0, pattern)), pattern),
    },
    TrackKind { name: "subnormals", sample: |_, pattern| noise(0, pattern) * f32::MIN_POSITIVE },
    TrackKind { name: "near the overflow", sample: |_, pattern| noise(0, pattern) * f32::MAX },
    TrackKind { name: "random patterns", sample: |_, pattern| f32::from_bits(pattern as u32) },
];

/// Anywhere from -1 to 1.
fn noise(_: usize, pattern: u64) -> f32 {
    unit(pattern) * 2.0 - 1.0
}

/// A chord over a little noise.
fn tones(place: usize, pattern: u64) -> f32 {
    let tone = |step: f32| (2.0 * PI * step * place as f32).sin();
    0.3 * (tone(0.01) + tone(0.0126) + tone(0.015)) + 0.01 * noise(0, pattern)
}

/// Noise, and in one of sixty-four places the value.
fn strewn(value: f32, pattern: u64) -> f32 {
    if pattern.is_multiple_of(64) { value } else { noise(0, pattern) }
}

impl TrackKind {
    /// The track of a stream of the seed.
    pub fn track(&self, seed: u64, stream: u64, length: usize) -> Vec<f32> {
        patterns(seed, stream)
            .take(length)
            .enumerate()
            .map(|(place, pattern)| (self.sample)(place, pattern))
            .collect()
    }
}
