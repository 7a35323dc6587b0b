//! Long lists of four keys in turn: the majority of windows, the alternate of segments, and short segments joined to
//! one, beside the oracle's: milliseconds for one call.
use crate::rounds::{Pair, header, seconds};
use bench::oracle::key_lime::KeySegment;
use bench::oracle::key_lime::expose::{
    key_from_index, majority_key, merge_short_segments, significant_alternate_key,
};
use bench::probe::segments::{alternate, majority, shorten};
use ulyptesh::calls::SegmentRows;

/// As many as four hours and a day have, one every half second.
const COUNTS: [usize; 2] = [28_800, 172_800];

/// C major, E major, G major and A minor; the first is reported.
const KEYS: [u8; 4] = [0, 4, 7, 21];

fn milliseconds<A, B>(ours: impl Fn() -> A, theirs: impl Fn() -> B) -> Pair {
    Pair::of_times(|| 1e3 * seconds(&ours), || 1e3 * seconds(&theirs))
}

/// The oracle moves all behind a join, so one round of the longer list has to do.
fn one_round<A, B>(ours: impl Fn() -> A, theirs: impl Fn() -> B) -> Pair {
    Pair::of_rounds(1, || 1e3 * seconds(&ours), || 1e3 * seconds(&theirs))
}

fn numbers(count: usize) -> Vec<u8> {
    KEYS.iter().copied().cycle().take(count).collect()
}

/// The oracle's side makes a list of estimates of its keys first.
fn print_majority(count: usize) {
    let numbers = numbers(count);
    let keys: Vec<_> = numbers.iter().map(|&number| key_from_index(number.into())).collect();
    milliseconds(|| majority(&numbers), || majority_key(&keys)).print(&format!("majority of {count}"));
}

/// Segments of half a second, one behind the other.
fn rows(count: usize) -> SegmentRows {
    let time = |i: usize| i as f64 / 2.0;
    SegmentRows {
        starts: (0..count).map(time).collect(),
        ends: (1..=count).map(time).collect(),
        keys: numbers(count),
        confidences: vec![0.5; count],
        counts: vec![1; count],
    }
}

fn theirs(rows: &SegmentRows) -> Vec<KeySegment> {
    let segment = |i: usize| KeySegment {
        start_seconds: rows.starts[i],
        end_seconds: rows.ends[i],
        key: key_from_index(rows.keys[i].into()),
        confidence: rows.confidences[i],
    };
    (0..rows.keys.len()).map(segment).collect()
}

fn print_alternate(count: usize) {
    let rows = rows(count);
    let (segments, reported) = (theirs(&rows), key_from_index(KEYS[0].into()));
    let named = || significant_alternate_key(&segments, reported, 0.1);
    milliseconds(|| alternate(KEYS[0], 0.1, &rows), named).print(&format!("alternate of {count}"));
}

/// Every segment is short, so that one is left; both sides copy the list first.
fn print_shortening(count: usize) {
    const LEAST: f64 = 1e9;
    let rows = rows(count);
    let segments = theirs(&rows);
    let ours = || {
        let mut rows = rows.clone();
        shorten(LEAST, &mut rows)
    };
    let theirs = || {
        let mut segments = segments.clone();
        merge_short_segments(&mut segments, LEAST);
        segments.len()
    };
    one_round(ours, theirs).print(&format!("shortening of {count}"));
}

pub fn print_rows() {
    header("ms for a long list", "oracle");
    COUNTS.into_iter().for_each(print_majority);
    COUNTS.into_iter().for_each(print_alternate);
    COUNTS.into_iter().for_each(print_shortening);
}
