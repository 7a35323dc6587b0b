//! The leaves of one number, beside the hardware's.
use crate::edges::{f32_values, f64_values};
use crate::format::Format;
use crate::groups::Groups;
use bench::probe::{probe_floor, probe_narrow, probe_square_root, probe_widen};

fn every_pattern() -> impl Iterator<Item = f32> {
    (0..=u32::MAX).map(f32::from_bits)
}

fn compare_finite<F: Format>(groups: &mut Groups, values: impl Iterator<Item = F>) {
    let name = format!("is_finite {}", F::NAME);
    groups.group(&name, values, F::our_is_finite, F::rust_is_finite);
}

/// `x.max(0.0)`, which the Rust writes with the constant: bits equal, +0 for zeros.
fn compare_larger_than_zero<F: Format>(groups: &mut Groups, values: impl Iterator<Item = F>) {
    let name = format!("larger {} with 0", F::NAME);
    groups.group(&name, values, |x| x.our_larger(F::of_pattern(0)), |x| x.one_nan().rust_max_with_zero());
}

fn compare_root_and_floor<V: Iterator<Item = f32>>(groups: &mut Groups, which: &str, values: impl Fn() -> V) {
    groups.group(&format!("square_root{which}"), values(), |x| probe_square_root(x), f32::sqrt);
    groups.group(&format!("floor{which}"), values(), |x| probe_floor(x), f32::floor);
}

pub fn compare(groups: &mut Groups) {
    let seed = groups.seed;
    compare_root_and_floor(groups, "", || f32_values(seed));
    groups.group("widen", f32_values(seed), |x| probe_widen(x), f64::from);
    groups.group("narrow", f64_values(seed), |x| probe_narrow(x), |x| x as f32);
    groups.group("narrow of widen", f32_values(seed), |x| probe_narrow(probe_widen(x)), |x| x);
    compare_finite::<f32>(groups, f32_values(seed));
    compare_finite::<f64>(groups, f64_values(seed));
    compare_larger_than_zero::<f32>(groups, f32_values(seed));
    compare_larger_than_zero::<f64>(groups, f64_values(seed));
    if groups.all {
        compare_root_and_floor(groups, ", all patterns", every_pattern);
    }
}
