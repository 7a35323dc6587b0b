//! Medians in lent work numbers, beside Rust's selection.
use crate::groups::Groups;
use bench::inputs::chromas::plain_kinds;
use bench::inputs::random::patterns;
use bench::probe;
use std::iter;

/// Medians are of one to this many values.
const MOST_VALUES: usize = 2_000;

/// So many numbers stand behind those lent.
const NOT_LENT: usize = 2;

/// Lengths and counts up to this are lent, fitting or not.
const LONGEST_WORK: usize = 20;

/// Numbers, of which all but the last two are lent, and how many of those to take the median of.
type Work = (Vec<f32>, usize);

/// The median, and what the numbers are afterwards.
type Selected = (f32, Vec<f32>);

fn lent(numbers: &[f32]) -> usize {
    numbers.len() - NOT_LENT
}

fn ours((mut numbers, count): Work) -> Selected {
    let lent = lent(&numbers);
    let median = probe::median(&mut numbers[..lent], count);
    (median, numbers)
}

/// Rust's selection from the counted numbers, with one NaN, the positive one, which is last.
fn their_median(counted: &[f32]) -> f32 {
    let mut values: Vec<f32> = counted.iter().map(|x| if x.is_nan() { f32::NAN } else { *x }).collect();
    *values.select_nth_unstable_by(counted.len() / 2, f32::total_cmp).1
}

/// Rust's median, the counted numbers +0 and the others as they were; all as they were where the count is 0
/// or more than are lent.
fn theirs((mut numbers, count): Work) -> Selected {
    if count == 0 || count > lent(&numbers) {
        return (0.0, numbers);
    }
    let median = their_median(&numbers[..count]);
    numbers[..count].fill(0.0);
    (median, numbers)
}

/// From one value to the most, with none to three lent behind those counted.
fn every_count(mut values: impl Iterator<Item = f32>) -> impl Iterator<Item = Work> {
    (1..=MOST_VALUES).map(move |count| (values.by_ref().take(count + count % 4 + NOT_LENT).collect(), count))
}

/// Eight neighbours only, in runs from another number on: most values tie, and the last bits decide.
fn neighbours(seed: u64) -> impl Iterator<Item = f32> {
    const RUN: usize = 1 << 12;
    let from = |start: u64| (start as u32 % f32::INFINITY.to_bits()) & !7 | (start >> 32 << 31) as u32;
    let run = move |start| iter::repeat_n(from(start), RUN);
    let lowest = patterns(seed, 60).flat_map(run);
    lowest.zip(patterns(seed, 61)).map(|(lowest, pattern)| f32::from_bits(lowest | pattern as u32 & 7))
}

/// Subnormals and zeros of both signs.
fn subnormals(seed: u64) -> impl Iterator<Item = f32> {
    let digits = |pattern: u64| (pattern as u32 & 0x7f_ffff) >> (pattern >> 32 & 0x1f).min(23);
    patterns(seed, 62).map(move |pattern| f32::from_bits(digits(pattern) | (pattern >> 63 << 31) as u32))
}

/// All equal, two values only, rising, falling, and NaNs and zeros of both signs among a few numbers.
fn shapes(seed: u64) -> impl Iterator<Item = Work> {
    const FEW: [f32; 6] = [f32::NAN, 0.0, -0.0, f32::INFINITY, f32::NEG_INFINITY, 1.0];
    let value = |shape: usize, place: usize, pattern: u64| match shape {
        0 => 0.25,
        1 => [0.0, 0.5][pattern as usize % 2],
        2 => place as f32,
        3 => -(place as f32),
        4 => [-0.0, 0.0][pattern as usize % 2],
        5 => FEW[pattern as usize % FEW.len()],
        6 => [f32::NAN, 1e-45, -1e-45][pattern as usize % 3],
        _ => (pattern % 9) as f32 - 4.0,
    };
    let numbers = move |shape: usize, count: usize| {
        let patterns = patterns(seed, 63 + shape as u64).take(count + NOT_LENT);
        patterns.enumerate().map(move |(place, pattern)| value(shape, place, pattern)).collect()
    };
    let counts = || (1..=200).chain([257, 1_000, 4_099, 20_000]);
    (0..8).flat_map(move |shape| counts().map(move |count| (numbers(shape, count), count)))
}

/// Work of every length with every count, none and too many among them; the numbers fall.
fn every_length() -> impl Iterator<Item = Work> {
    let work = |lent: usize| (0..lent + NOT_LENT).map(|place| 1000.0 - place as f32).collect::<Vec<_>>();
    let counts = || (0..=LONGEST_WORK + 2).chain([usize::MAX]);
    (0..=LONGEST_WORK).flat_map(move |lent| counts().map(move |count| (work(lent), count)))
}

pub fn compare(groups: &mut Groups) {
    let seed = groups.seed;
    for kind in plain_kinds(seed) {
        let name = format!("medians, {}", kind.name);
        groups.group(&name, every_count(kind.chromas.flatten()), ours, theirs);
    }
    groups.group("medians, neighbours", every_count(neighbours(seed)), ours, theirs);
    groups.group("medians, subnormals", every_count(subnormals(seed)), ours, theirs);
    groups.group("medians, shapes", shapes(seed), ours, theirs);
    groups.group("medians, every length", every_length(), ours, theirs);
}
