//! Inputs where a leaf of the chroma may go wrong: sums and peaks at the floor, flat peaks, offsets.
use crate::edges::{every_exponent, wholes_and_halves, with_neighbours};
use bench::inputs::chromas::{Draw, Kind, draws, unit};
use bench::inputs::random::patterns;
use std::array;
use std::iter;
use ulyptesh::Chroma;

/// What a sum, a peak and its rise over both neighbours have to exceed: 2^-23.
const FLOOR: f32 = f32::EPSILON;

/// The twelve ordinary levels, then the ends of the format.
const LEVELS: [f32; 16] = [
    0.0,
    -0.0,
    f32::from_bits(1),
    f32::MIN_POSITIVE,
    FLOOR / 2.0,
    FLOOR,
    FLOOR.next_up(),
    2.0 * FLOOR,
    0.5,
    1.0,
    1.0f32.next_up(),
    -1.0,
    f32::MAX,
    f32::INFINITY,
    f32::NEG_INFINITY,
    f32::NAN,
];

/// So many levels are ordinary.
const ORDINARY: usize = 12;

/// A positive number so many patterns further up, or further down where the steps are negative.
fn stepped(x: f32, steps: i32) -> f32 {
    f32::from_bits(x.to_bits().wrapping_add_signed(steps))
}

/// Eleven bins that sum to about half the floor, and a last one with which all twelve sum to the floor or end
/// just off it.
fn sum_at_floor(draw: Draw) -> Chroma {
    let mut chroma = draw.bins.map(|pattern| unit(pattern) * (FLOOR / 12.0));
    let before = chroma[..11].iter().sum::<f32>();
    chroma[11] = stepped(FLOOR - before, (draw.whole % 32) as i32 - 16);
    chroma
}

pub fn sums_at_floor(seed: u64) -> Kind {
    Kind { name: "sums around 2^-23", chromas: Box::new(draws(seed, 50).map(sum_at_floor)) }
}

/// Bins of a few levels, so that neighbours are often equal: ordinary ones, or the ends of the format too.
fn of_few_levels(draw: Draw) -> Chroma {
    let levels = if draw.whole & 1 == 0 { ORDINARY } else { LEVELS.len() };
    draw.bins.map(|pattern| LEVELS[(pattern >> 32) as usize % levels])
}

/// Peaks a few steps off the floor, between bins a few steps off its half or 0: their rise is at the floor too.
fn peaks_at_floor(draw: Draw) -> Chroma {
    let near = |x: f32, pattern: u64| stepped(x, (pattern >> 32) as i32 % 5);
    array::from_fn(|bin| match (bin % 2, draw.bins[bin]) {
        (1, pattern) => near(FLOOR, pattern),
        (_, pattern) if pattern & 3 == 0 => 0.0,
        (_, pattern) => near(FLOOR / 2.0, pattern),
    })
}

/// Every other bin is its left or its right neighbour, or up to three steps above it.
fn flat_peaks(draw: Draw) -> Chroma {
    let mut chroma = draw.bins.map(unit);
    let side = if draw.whole & 1 == 0 { 1 } else { 11 };
    for bin in (0..12).step_by(2) {
        chroma[bin] = stepped(chroma[(bin + side) % 12], (draw.bins[bin] % 4) as i32);
    }
    chroma
}

/// One peak a step or two above a neighbour, the other bins from -0 down to -4096: rounded, the offset may pass
/// 0.5 either way, where the clamp holds it.
fn peak_in_a_valley(draw: Draw) -> Chroma {
    let mut chroma = draw.bins.map(|pattern| -unit(pattern) * 2f32.powi((pattern % 13) as i32));
    let bin = (draw.whole >> 8) as usize % 12;
    let side = if draw.whole & 1 == 0 { 1 } else { 11 };
    chroma[bin] = 0.5 + unit(draw.whole);
    chroma[(bin + side) % 12] = stepped(chroma[bin], -1 - (draw.whole >> 1 & 1) as i32);
    chroma
}

/// The kinds where a peak is none, or nearly none, or leans as far as it can.
pub fn peaks(seed: u64) -> impl Iterator<Item = Kind> {
    let kind = |name, stream, make: fn(Draw) -> Chroma| Kind {
        name,
        chromas: Box::new(draws(seed, stream).map(make)),
    };
    [
        kind("few levels", 51, of_few_levels),
        kind("peaks around 2^-23", 52, peaks_at_floor),
        kind("flat peaks", 53, flat_peaks),
        kind("peaks in a valley", 55, peak_in_a_valley),
    ]
    .into_iter()
}

/// Twelve numbers at a time; what is left at the end is dropped.
pub fn in_twelves(mut values: impl Iterator<Item = f32>) -> impl Iterator<Item = Chroma> {
    iter::from_fn(move || {
        let mut chroma = [0.0; 12];
        for bin in &mut chroma {
            *bin = values.next()?;
        }
        Some(chroma)
    })
}

/// Endless: from -0.5 to 0.5 as a tuning is, from -24 to 24, and any pattern, in turn.
fn any_offsets(seed: u64) -> impl Iterator<Item = f32> {
    let three = |pattern| [unit(pattern) - 0.5, unit(pattern) * 48.0 - 24.0, f32::from_bits(pattern as u32)];
    patterns(seed, 54).flat_map(three)
}

/// The edges under every exponent, and whole numbers and halves of both signs with the steps around them.
fn special_offsets() -> impl Iterator<Item = f32> {
    let exact = wholes_and_halves().chain([0.01, 1e30]).flat_map(with_neighbours);
    every_exponent().chain(exact.flat_map(|x| [x, -x]))
}

/// All special offsets, and then so many others.
pub fn offsets(seed: u64, others: usize) -> impl Iterator<Item = f32> {
    special_offsets().chain(any_offsets(seed).take(others))
}
