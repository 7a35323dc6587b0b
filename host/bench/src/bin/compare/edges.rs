//! Inputs where a leaf may go wrong: the edges of both formats.
use crate::format::Format;
use bench::inputs::random::patterns;

/// Both ends and the middle of the digits, with even and odd neighbours.
fn digit_edges<F: Format>() -> [u64; 9] {
    let all = 1 << F::DIGIT_BITS;
    let half = all / 2;
    [0, 1, 2, 3, half - 1, half, half + 1, all - 2, all - 1]
}

/// The edges that share a sign and an exponent. At the lowest exponent a zero and the ends of the subnormals,
/// at the highest an infinity and NaNs, elsewhere a power of two and the last value before the next one.
fn edges_under<F: Format>(sign_and_exponent: u64) -> [F; 9] {
    digit_edges::<F>().map(|digits| F::of_pattern(sign_and_exponent << F::DIGIT_BITS | digits))
}

/// The edges under every exponent, of both signs.
pub fn every_exponent<F: Format>() -> impl Iterator<Item = F> {
    (0..2u64 << F::EXPONENT_BITS).flat_map(edges_under)
}

/// A few hundred values for pairs: the edges under the outermost exponents, around 1 and where fractions end.
pub fn special_values<F: Format>() -> Vec<F> {
    let highest = (1u64 << F::EXPONENT_BITS) - 1;
    let one = highest / 2;
    let whole = one + u64::from(F::DIGIT_BITS);
    let exponents = [0..3, one - 2..one + 3, whole - 1..whole + 2, highest - 2..highest + 1];
    exponents
        .into_iter()
        .flatten()
        .flat_map(|exponent| [exponent, highest + 1 + exponent])
        .flat_map(edges_under)
        .collect()
}

/// A number between the one before and the one after it.
pub fn with_neighbours(x: f32) -> [f32; 3] {
    [x.next_down(), x, x.next_up()]
}

/// Squares of whole numbers by even powers of two, from the subnormals up: their roots are exact.
fn squares() -> impl Iterator<Item = f32> {
    let square = |n: u32| f64::from(n * n);
    let scaled = move |n| [-148, -80, -2, 0, 2, 80, 102].map(|power| (square(n) * 2f64.powi(power)) as f32);
    (1..=4096).flat_map(scaled)
}

/// Whole numbers and halves, and those around the powers of two where halves and then ones end.
pub fn wholes_and_halves() -> impl Iterator<Item = f32> {
    let around = |power: u32| (1u32 << power) - 100..(1 << power) + 100;
    (0..20_000)
        .chain(around(22))
        .chain(around(23))
        .chain(around(24))
        .flat_map(|n| [f64::from(n) as f32, (f64::from(n) + 0.5) as f32])
}

/// Every 256th pattern, the lowest byte varied: 2^24 values, under every exponent and of both signs.
fn fixed_spread() -> impl Iterator<Item = f32> {
    (0..1u32 << 24).map(|n| f32::from_bits(n << 8 | n.wrapping_mul(167) & 0xff))
}

/// All edges of the f32, the fixed spread, and 2^22 random patterns.
pub fn f32_values(seed: u64) -> impl Iterator<Item = f32> {
    let exact = squares().chain(wholes_and_halves()).flat_map(with_neighbours);
    every_exponent()
        .chain(exact.flat_map(|x| [x, -x]))
        .chain(fixed_spread())
        .chain(patterns(seed, 1).map(f32::of_pattern).take(1 << 22))
}

/// The f32 after x; after the largest, the power of two that the format has not.
fn next_above(x: f32) -> f64 {
    if x == f32::MAX { 2f64.powi(128) } else { f64::from(x.next_up()) }
}

/// A finite x not below zero, and the middle between it and the next f32: exact, and one f64 step off.
fn around_middle(x: f32) -> [f64; 6] {
    let here = f64::from(x);
    let middle = (here + next_above(x)) / 2.0;
    [here.next_down(), here, here.next_up(), middle.next_down(), middle, middle.next_up()]
}

/// Around the f32 values under every exponent, from half the smallest to the overflow.
fn f32_middles() -> impl Iterator<Item = f64> {
    let not_below_zero = every_exponent::<f32>().filter(|x| x.is_finite() && x.is_sign_positive());
    not_below_zero.flat_map(around_middle).flat_map(|x| [x, -x])
}

/// Under every f64 exponent: the last digits that an f32 keeps, a tie, and one off.
fn f64_ties() -> impl Iterator<Item = f64> {
    let kept = 1u64 << 29;
    let tie = kept / 2;
    let digits = [tie - 1, tie, tie + 1, kept - 1, kept, kept + 1, kept + tie, kept + tie + 1];
    (0..1u64 << 12).flat_map(move |top| digits.map(|low| f64::from_bits(top << 52 | low)))
}

/// The digits and sign of a pattern, with an exponent that an f32 has or nearly has.
fn in_f32_range(pattern: u64) -> f64 {
    let exponent = 870 + (pattern >> 52 & 0x7ff) % 284;
    f64::from_bits(pattern & !(0x7ff << 52) | exponent << 52)
}

/// Around the middle of a random f32 and its neighbour.
fn near_middle(pattern: u64) -> f64 {
    let x = f32::from_bits(pattern as u32 % f32::INFINITY.to_bits());
    let near = around_middle(x)[(pattern >> 32) as usize % 6];
    if pattern >> 63 == 0 { near } else { -near }
}

/// All edges of both formats, and 12 * 2^20 random patterns: in the range of the f32, near ties, anywhere.
pub fn f64_values(seed: u64) -> impl Iterator<Item = f64> {
    let random = |stream| patterns(seed, stream).take(1 << 22);
    every_exponent()
        .chain(f32_middles())
        .chain(f64_ties())
        .chain(random(2).map(in_f32_range))
        .chain(random(3).map(near_middle))
        .chain(random(4).map(f64::from_bits))
}

/// A second value beside a first: any, the same, the next pattern, or the other sign.
fn beside<F: Format>((first, second): (u64, u64)) -> (F, F) {
    let sign = 1 << (F::DIGIT_BITS + F::EXPONENT_BITS);
    let other = match second >> 62 {
        0 => second,
        1 => first,
        2 => first.wrapping_add(1),
        _ => first ^ sign,
    };
    (F::of_pattern(first), F::of_pattern(other))
}

/// All pairs of special values, and 2^21 random pairs.
pub fn pairs<F: Format>(seed: u64) -> impl Iterator<Item = (F, F)> {
    let special = special_values::<F>();
    let seconds = special.clone();
    let all = special.into_iter().flat_map(move |a| seconds.clone().into_iter().map(move |b| (a, b)));
    all.chain(patterns(seed, 5).zip(patterns(seed, 6)).map(beside).take(1 << 21))
}
