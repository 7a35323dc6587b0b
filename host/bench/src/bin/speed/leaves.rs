//! The leaves beside the hardware's, and the median beside Rust's selection: nanoseconds for one.
use crate::SEED;
use crate::rounds::{Pair, header};
use bench::inputs::random::patterns;
use bench::probe::{median, probe_narrow, probe_square_root};

const VALUES: usize = 1 << 14;

/// Values of which the medians are taken, in sets of so many.
const DRAWN: usize = 40_000;
const MANY: usize = 10_000;
const FEW: usize = 100;

fn fixed_patterns() -> impl Iterator<Item = u64> {
    patterns(SEED, 0).take(VALUES)
}

/// A positive normal value from 2^-32 to 2^32, as samples and energies are.
fn ordinary_value(pattern: u64) -> f64 {
    f64::from_bits((1023 - 32 + (pattern >> 58)) << 52 | pattern >> 12)
}

fn row<X: Copy>(
    name: &str,
    values: impl Iterator<Item = X>,
    ours: impl Fn(X) -> f32,
    theirs: impl Fn(X) -> f32,
) {
    Pair::of_steps(1, &values.collect::<Vec<X>>(), ours, theirs).print(name);
}

pub fn print_rows() {
    let ordinary = || fixed_patterns().map(ordinary_value);
    let single = |pattern| f32::from_bits(pattern as u32);
    header("ns for one value", "hardware");
    row("square_root, ordinary values", ordinary().map(|x| x as f32), |x| probe_square_root(x), f32::sqrt);
    row("square_root, mixed patterns", fixed_patterns().map(single), |x| probe_square_root(x), f32::sqrt);
    row("narrow, ordinary values", ordinary(), |x| probe_narrow(x), |x| x as f32);
    row("narrow, mixed patterns", fixed_patterns().map(f64::from_bits), |x| probe_narrow(x), |x| x as f32);
    print_medians();
}

/// Both sides work on a copy, whose making counts.
fn print_median(name: &str, values: &[f32], count: usize) {
    row(
        name,
        values.chunks_exact(count),
        |set| median(&mut set.to_vec(), count),
        |set| *set.to_vec().select_nth_unstable_by(count / 2, f32::total_cmp).1,
    );
}

/// Of ordinary values, many and few, and of such with half of them a zero.
fn print_medians() {
    let drawn = |value: fn(u64) -> f32| patterns(SEED, 1).take(DRAWN).map(value).collect::<Vec<f32>>();
    let values = drawn(|pattern| ordinary_value(pattern) as f32);
    let zeroed = drawn(|pattern| if pattern % 2 == 0 { 0.0 } else { ordinary_value(pattern) as f32 });
    header("ns for one median", "Rust");
    print_median("median, 10,000 ordinary values", &values, MANY);
    print_median("median, 10,000, half of them 0", &zeroed, MANY);
    print_median("median, 100 ordinary values", &values, FEW);
}
