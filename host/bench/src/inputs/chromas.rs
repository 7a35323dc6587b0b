//! Chromas from a seed: endless runs, one for each kind that may go wrong.
use super::random::patterns;
use std::array;
use std::iter;
use ulyptesh::Chroma;

/// An endless run of chromas that have one thing in common.
pub struct Kind {
    pub name: &'static str,
    pub chromas: Box<dyn Iterator<Item = Chroma>>,
}

/// What one chroma is made from: a random pattern for each bin, and one for the whole.
pub struct Draw {
    pub whole: u64,
    pub bins: [u64; 12],
}

pub fn draws(seed: u64, stream: u64) -> impl Iterator<Item = Draw> {
    let mut run = patterns(seed, stream);
    let mut next = move || run.next().expect("patterns never end");
    iter::repeat_with(move || Draw { whole: next(), bins: array::from_fn(|_| next()) })
}

/// A number from 0 to below 1, one of 2^24 equal steps.
pub fn unit(pattern: u64) -> f32 {
    (pattern >> 40) as f32 / 16_777_216.0
}

/// The chroma times a power of two, rounded once.
pub fn scaled(chroma: Chroma, power: i32) -> Chroma {
    chroma.map(|x| (f64::from(x) * 2f64.powi(power)) as f32)
}

/// Every bin anywhere from 0 to 1.
pub fn uniform(draw: Draw) -> Chroma {
    draw.bins.map(unit)
}

/// Every bin anywhere from -1 to 1.
fn signed(draw: Draw) -> Chroma {
    draw.bins.map(|pattern| unit(pattern) * 2.0 - 1.0)
}

/// Uniform, divided by its sum.
fn normalised(draw: Draw) -> Chroma {
    let chroma = uniform(draw);
    let total = chroma.iter().sum::<f32>();
    chroma.map(|x| x / total)
}

/// One to three bins sound, the others are 0.
fn sparse(draw: Draw) -> Chroma {
    let mut chroma = [0.0; 12];
    for nth in 0..1 + draw.whole as usize % 3 {
        let bin = (draw.whole >> (16 * (nth + 1))) as usize % 12;
        chroma[bin] = unit(draw.bins[nth]);
    }
    chroma
}

/// All bins equal but for the last three bits.
fn near_equal(draw: Draw) -> Chroma {
    let lowest = unit(draw.whole).to_bits();
    draw.bins.map(|pattern| f32::from_bits(lowest + pattern as u32 % 8))
}

/// Uniform times 2^-14 to 2^-29, where the divisor begins to be held up, or 2^-30 to 2^-149, down to subnormal.
fn tiny(draw: Draw) -> Chroma {
    let choice = (draw.whole >> 8) as i32 & 0xffff;
    let power = if draw.whole & 1 == 0 { 14 + choice % 16 } else { 30 + choice % 120 };
    scaled(uniform(draw), -power)
}

/// Uniform times 2^56 to 2^71, where squares begin to overflow, or 2^72 to 2^128, up to the overflow of sums.
fn huge(draw: Draw) -> Chroma {
    let choice = (draw.whole >> 8) as i32 & 0xffff;
    let power = if draw.whole & 1 == 0 { 56 + choice % 16 } else { 72 + choice % 57 };
    scaled(uniform(draw), power)
}

/// NaNs or infinities of both signs in one bin or in some.
fn not_finite(draw: Draw) -> Chroma {
    const ENDS: [f32; 4] = [f32::NAN, -f32::NAN, f32::INFINITY, f32::NEG_INFINITY];
    let end = |pattern: u64| ENDS[pattern as usize % 4];
    let some = draw.whole & 1 == 0;
    let mut chroma =
        draw.bins.map(|pattern| if some && pattern & 4 == 0 { end(pattern) } else { unit(pattern) });
    chroma[(draw.whole >> 8) as usize % 12] = end(draw.whole >> 16);
    chroma
}

/// Zeros of both signs in all bins, or in half of them.
fn zeros(draw: Draw) -> Chroma {
    let zero = |pattern: u64| if pattern & 1 == 0 { 0.0 } else { -0.0 };
    let some = draw.whole & 1 == 0;
    draw.bins.map(|pattern| if some && pattern & 2 == 0 { unit(pattern) } else { zero(pattern) })
}

/// Any twelve patterns.
fn any(draw: Draw) -> Chroma {
    draw.bins.map(|pattern| f32::from_bits(pattern as u32))
}

/// One number in all bins: the edges of the format, then from 0 to 1 and any pattern in turn.
fn all_equal(draws: impl Iterator<Item = Draw>) -> impl Iterator<Item = Chroma> {
    let edges = [0.0, -0.0, 1.0, f32::MIN_POSITIVE, f32::MAX, f32::NAN, f32::INFINITY];
    let others = draws.flat_map(|draw| [unit(draw.whole), f32::from_bits(draw.whole as u32)]);
    edges.into_iter().chain(others).map(|x| [x; 12])
}

type Maker = fn(Draw) -> Chroma;

const MADE_FROM_A_DRAW: [(&str, Maker); 10] = [
    ("uniform", uniform),
    ("signed", signed),
    ("normalised", normalised),
    ("sparse", sparse),
    ("near-equal", near_equal),
    ("tiny", tiny),
    ("huge", huge),
    ("NaN and infinities", not_finite),
    ("zeros of both signs", zeros),
    ("any patterns", any),
];

/// The kinds that need no answer to be made.
pub fn plain_kinds(seed: u64) -> impl Iterator<Item = Kind> {
    plain_kinds_from(seed, 20)
}

/// The same kinds from other streams, that one and those behind it.
pub fn plain_kinds_from(seed: u64, stream: u64) -> impl Iterator<Item = Kind> {
    let equal = Kind { name: "all equal", chromas: Box::new(all_equal(draws(seed, stream))) };
    (stream + 1..)
        .zip(MADE_FROM_A_DRAW)
        .map(move |(stream, (name, make))| Kind { name, chromas: Box::new(draws(seed, stream).map(make)) })
        .chain([equal])
}
