//! The tracks that are timed; each stream of the seed is a track of its own.
use crate::SEED;
use bench::inputs::dice::Dice;
use bench::inputs::random::patterns;
use bench::inputs::tracks::{Maker, kind};

/// Anywhere from -1 to 1.
pub fn noise(stream: u64, length: usize) -> Vec<f32> {
    patterns(SEED, stream).take(length).map(|pattern| (pattern >> 40) as f32 / 8_388_608.0 - 1.0).collect()
}

/// Chords over noise.
pub fn chords(stream: u64, rate: u32, seconds: usize) -> Vec<f32> {
    let mut maker = Maker { dice: Dice::new(SEED, stream), rate };
    (kind("noise bed").make)(&mut maker, seconds * rate as usize)
}
