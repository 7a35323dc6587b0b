//! Whether a chroma has a shape: how many of its correlations have a divisor that the floor holds up, by the request's
//! words over the oracle's own divisors.
use super::key_lime::expose::{divisor, key_profiles};
use ulyptesh::Chroma;

/// The correlations of one chroma: eight profiles at twelve roots.
pub const CORRELATIONS: usize = 96;

/// What replaces a smaller divisor: 2^-23.
pub const FLOOR: f32 = f32::EPSILON;

/// The divisor of one correlation before the floor: a profile's twelve stand together, root by root.
pub fn divisor_at(place: usize, chroma: &Chroma) -> f32 {
    let (major, minor) = key_profiles()[place / 24];
    let profile = if place % 24 < 12 { major } else { minor };
    divisor(chroma, profile, place % 12)
}

/// The divisors of all correlations.
pub fn divisors(chroma: &Chroma) -> [f32; CORRELATIONS] {
    assert_eq!(2 * 12 * key_profiles().len(), CORRELATIONS, "the profiles of the oracle");
    std::array::from_fn(|place| divisor_at(place, chroma))
}

/// Smaller than the floor, or a NaN; the floor itself is not held up.
pub fn is_held_up(divisor: f32) -> bool {
    divisor.is_nan() || divisor < FLOOR
}

/// How many of the 96 divisors are held up.
pub fn held_up(chroma: &Chroma) -> usize {
    divisors(chroma).into_iter().filter(|&divisor| is_held_up(divisor)).count()
}

/// Yes exactly if any of the 96 correlations has its divisor held up.
pub fn is_shapeless(chroma: &Chroma) -> bool {
    held_up(chroma) > 0
}
