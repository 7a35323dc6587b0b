//! The numbers that stand for values in a sample.

/// What random inputs are made from.
pub const SEED: u64 = 44_100;

/// The pattern of a value.
pub fn pattern(x: &f32) -> u32 {
    if x.is_nan() { 0x7fc0_0000 } else { x.to_bits() }
}
