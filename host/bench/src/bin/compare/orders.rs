//! The leaves of two numbers: total order, larger, smaller.
use crate::edges::pairs;
use crate::format::Format;
use crate::groups::Groups;

/// Rust's total order with one NaN, the positive one, which is last.
fn at_or_before<F: Format>((a, b): (F, F)) -> bool {
    a.one_nan().rust_order(b.one_nan()).is_le()
}

/// Equal numbers with different patterns: only +0 and -0 are.
fn zeros_of_both_signs<F: Format>(a: F, b: F) -> bool {
    a == b && a.pattern() != b.pattern()
}

/// Rust's max. It leaves the sign of zeros of both signs open; ours is +0.
fn wanted_larger<F: Format>((a, b): (F, F)) -> F {
    if zeros_of_both_signs(a, b) {
        return F::of_pattern(0);
    }
    a.one_nan().rust_max(b.one_nan())
}

/// Rust's min. It leaves the sign of zeros of both signs open; ours is -0.
fn wanted_smaller<F: Format>((a, b): (F, F)) -> F {
    if zeros_of_both_signs(a, b) {
        return F::of_pattern(1 << (F::DIGIT_BITS + F::EXPONENT_BITS));
    }
    a.one_nan().rust_min(b.one_nan())
}

fn compare_format<F: Format>(groups: &mut Groups) {
    let name = |leaf: &str| format!("{leaf} {}", F::NAME);
    let inputs = pairs::<F>(groups.seed).collect::<Vec<_>>();
    let given = || inputs.iter().copied();
    groups.group(&name("total_before"), given(), |(a, b)| a.our_total_before(b), at_or_before);
    groups.group(&name("order_key"), given(), |(a, b)| a.our_order_key() <= b.our_order_key(), at_or_before);
    groups.group(&name("larger"), given(), |(a, b)| a.our_larger(b), wanted_larger);
    groups.group(&name("smaller"), given(), |(a, b)| a.our_smaller(b), wanted_smaller);
}

pub fn compare(groups: &mut Groups) {
    compare_format::<f32>(groups);
    compare_format::<f64>(groups);
}
