//! Numbers as a card packs them, beside whole-number arithmetic on the parts of a float.
use crate::edges::{f32_values, f64_values};
use crate::groups::Groups;
use bench::inputs::random::patterns;
use bench::probe::{probe_milliseconds, probe_thousandths};

/// What stands for none, in the answers of the probes too.
pub const REFUSED: u64 = u64::MAX;

/// The longest track, in seconds.
pub const LONGEST: u64 = 86_400;

/// So many random numbers of each kind.
const RANDOM: usize = 1 << 20;

/// A finite number that is not below 0 as `digits / 2^places`; none where it is 2^53 or more.
fn fraction(x: f64) -> Option<(u128, u32)> {
    let field = (x.to_bits() >> 52 & 0x7ff) as u32;
    let digits = u128::from(x.to_bits() & 0xf_ffff_ffff_ffff);
    match field {
        0 => Some((digits, 1074)),
        1..=1075 => Some((digits | 1 << 52, 1075 - field)),
        _ => None,
    }
}

/// `n / 2^places` rounded down.
fn halved(n: u128, places: u32) -> u128 {
    n.checked_shr(places).unwrap_or(0)
}

fn up_to(limit: u64, n: u128) -> u64 {
    if n <= u128::from(limit) { n as u64 } else { REFUSED }
}

/// The exact value times 1000, rounded down, up to the limit; -0 has 0, and what is below 0 has none.
fn whole_thousandths(x: f64, limit: u64) -> u64 {
    if x.is_nan() || x < 0.0 {
        return REFUSED;
    }
    fraction(x).map_or(REFUSED, |(digits, places)| up_to(limit, halved(digits * 1000, places)))
}

/// The thousandths of a part.
pub fn exact_thousandths(x: f32) -> u64 {
    whole_thousandths(x.into(), 1000)
}

/// The milliseconds of a time in seconds.
pub fn exact_milliseconds(x: f64) -> u64 {
    whole_thousandths(x, 1000 * LONGEST)
}

/// The milliseconds of a track's time on a card of a version before 0.2.0: the nearest, halves up.
pub fn nearest_milliseconds(x: f64) -> u64 {
    let (digits, places) = fraction(x).expect("a time below 2^53");
    halved(digits * 2000, places).div_ceil(2) as u64
}

/// Every multiple of 1/1000 up to 1 with the numbers around it.
fn around_thousandths() -> impl Iterator<Item = f32> {
    (0..=1001).flat_map(|n| {
        let x = n as f32 / 1000.0;
        [x.next_down(), x, x.next_up()]
    })
}

/// Every millisecond up to the longest track, and some behind it, with the numbers around it.
fn around_milliseconds() -> impl Iterator<Item = f64> {
    (0..1000 * LONGEST + 10).flat_map(|n| {
        let x = n as f64 / 1000.0;
        [x.next_down(), x, x.next_up()]
    })
}

/// Every half of a millisecond up to a tenth of a second, and up to the longest track from a tenth before it,
/// with the numbers around it, and as far below 0.
fn around_halves() -> impl Iterator<Item = f64> {
    let end = 2000 * LONGEST;
    (0..200).chain(end - 200..end + 10).flat_map(|n| {
        let x = n as f64 / 2000.0;
        [x.next_down(), x, x.next_up(), -x, -x.next_up()]
    })
}

/// Seconds of a track, and halves of milliseconds with the numbers around them.
fn seconds(seed: u64) -> impl Iterator<Item = f64> {
    patterns(seed, 71).take(RANDOM).flat_map(|pattern| {
        let half = (pattern % (2001 * LONGEST)) as f64 / 2000.0;
        [pattern as f64 / u64::MAX as f64 * LONGEST as f64, half.next_down(), half, half.next_up()]
    })
}

/// Numbers from 0 to 1.
fn parts(seed: u64) -> impl Iterator<Item = f32> {
    patterns(seed, 70).take(RANDOM).map(|pattern| (pattern >> 40) as f32 / (1 << 24) as f32)
}

pub fn compare(groups: &mut Groups) {
    let seed = groups.seed;
    let thousandths = |x: f32| probe_thousandths(x);
    groups.group("thousandths, around each", around_thousandths(), thousandths, exact_thousandths);
    groups.group("thousandths, 0 to 1", parts(seed), thousandths, exact_thousandths);
    groups.group("thousandths, edges of the format", f32_values(seed), thousandths, exact_thousandths);
    let milliseconds = |x: f64| probe_milliseconds(x);
    groups.group("milliseconds, around each", around_milliseconds(), milliseconds, exact_milliseconds);
    groups.group("milliseconds, around halves", around_halves(), milliseconds, exact_milliseconds);
    groups.group("milliseconds, of a track", seconds(seed), milliseconds, exact_milliseconds);
    groups.group("milliseconds, edges of the format", f64_values(seed), milliseconds, exact_milliseconds);
}
