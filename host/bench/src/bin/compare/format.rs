//! The two formats, each with Rust's answers and ours, so that every group is written once.
use crate::groups::Compared;
use bench::probe;
use std::cmp::Ordering;

/// f32 or f64.
pub trait Format: Compared + Copy + PartialEq + 'static {
    const NAME: &'static str;
    const DIGIT_BITS: u32;
    const EXPONENT_BITS: u32;
    const ONE_NAN: Self;

    /// The value with the lowest bits of a pattern.
    fn of_pattern(pattern: u64) -> Self;
    fn pattern(self) -> u64;
    fn is_nan(self) -> bool;

    /// Every NaN as the positive quiet one: some processors tell others apart.
    fn one_nan(self) -> Self {
        if self.is_nan() { Self::ONE_NAN } else { self }
    }

    fn rust_order(self, other: Self) -> Ordering;
    fn rust_max(self, other: Self) -> Self;
    fn rust_min(self, other: Self) -> Self;
    fn rust_max_with_zero(self) -> Self;
    fn rust_is_finite(self) -> bool;

    fn our_total_before(self, other: Self) -> bool;
    fn our_order_key(self) -> u64;
    fn our_larger(self, other: Self) -> Self;
    fn our_smaller(self, other: Self) -> Self;
    fn our_is_finite(self) -> bool;
}

macro_rules! format_of {
    (
        $float:ident, $bits:ty, $digit_bits:expr,
        $before:ident, $key:ident, $larger:ident, $smaller:ident, $finite:ident
    ) => {
        impl Format for $float {
            const NAME: &'static str = stringify!($float);
            const DIGIT_BITS: u32 = $digit_bits;
            const EXPONENT_BITS: u32 = <$bits>::BITS - 1 - $digit_bits;
            const ONE_NAN: Self = $float::NAN;

            fn of_pattern(pattern: u64) -> Self {
                $float::from_bits(pattern as $bits)
            }
            fn pattern(self) -> u64 {
                self.to_bits().into()
            }
            fn is_nan(self) -> bool {
                self.is_nan()
            }

            fn rust_order(self, other: Self) -> Ordering {
                self.total_cmp(&other)
            }
            fn rust_max(self, other: Self) -> Self {
                self.max(other)
            }
            fn rust_min(self, other: Self) -> Self {
                self.min(other)
            }
            fn rust_max_with_zero(self) -> Self {
                self.max(0.0)
            }
            fn rust_is_finite(self) -> bool {
                self.is_finite()
            }

            fn our_total_before(self, other: Self) -> bool {
                probe::$before(self, other)
            }
            fn our_order_key(self) -> u64 {
                probe::$key(self).into()
            }
            fn our_larger(self, other: Self) -> Self {
                probe::$larger(self, other)
            }
            fn our_smaller(self, other: Self) -> Self {
                probe::$smaller(self, other)
            }
            fn our_is_finite(self) -> bool {
                probe::$finite(self)
            }
        }
    };
}

format_of!(
    f32,
    u32,
    23,
    probe_total_before_f32,
    probe_order_key_f32,
    probe_larger_f32,
    probe_smaller_f32,
    probe_is_finite_f32
);
format_of!(
    f64,
    u64,
    52,
    probe_total_before_f64,
    probe_order_key_f64,
    probe_larger_f64,
    probe_smaller_f64,
    probe_is_finite_f64
);
