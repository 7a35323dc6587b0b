//! The reported key and the alternate, beside the oracle's `longest_segment_key` and `significant_alternate_key`.
use crate::groups::{Groups, compared_as_shown};
use crate::segment_lists::{
    Segment, anything, as_theirs, even, instants, put_segments, tiled, untouched_segments,
};
use bench::inputs::dice::Dice;
use bench::oracle::key_lime::expose::{
    key_from_index, key_number, longest_segment_key, significant_alternate_key,
};
use bench::probe::segments::{alternate, reported};
use ulyptesh::calls::SegmentRows;

/// Streams of the seed from here on are the alternates'.
const STREAM: u64 = 60_010;

/// So many lists for each of the two.
const LISTS: usize = 100_000;

const MOST_SEGMENTS: usize = 40;

/// Thresholds whatever the coverage is.
const THRESHOLDS: [f32; 12] = [
    0.25,
    0.25,
    1.0,
    0.0,
    -0.0,
    -0.25,
    f32::MIN_POSITIVE,
    1e-45,
    1e-9,
    f32::INFINITY,
    f32::NEG_INFINITY,
    f32::NAN,
];

/// Segments, and the key that was classified or is reported.
#[derive(Debug, Clone)]
struct Told {
    key: u8,
    threshold: f32,
    segments: Vec<Segment>,
}

compared_as_shown!(Told);

fn rows(segments: &[Segment]) -> SegmentRows {
    let mut rows = untouched_segments([segments.len(); 5]);
    put_segments(segments.iter().copied(), &mut rows);
    rows
}

/// Of several segments the longest one's key, else the classified one.
fn their_reported(told: Told) -> u8 {
    let longest = longest_segment_key(&as_theirs(&told.segments)).map(key_number);
    longest.filter(|_| told.segments.len() > 1).unwrap_or(told.key)
}

fn our_alternate(told: Told) -> (u8, f32) {
    let named = alternate(told.key, told.threshold, &rows(&told.segments));
    (named.key, named.coverage)
}

/// The oracle's alternate; 24 and 0 where there is none.
fn their_alternate(told: Told) -> (u8, f32) {
    named(told.key, told.threshold, &told.segments).unwrap_or((24, 0.0))
}

fn named(reported: u8, threshold: f32, segments: &[Segment]) -> Option<(u8, f32)> {
    let found = significant_alternate_key(&as_theirs(segments), key_from_index(reported.into()), threshold);
    found.map(|(key, coverage)| (key_number(key), coverage))
}

/// Most tie; some tile, are instants or anything.
fn segments(dice: &mut Dice) -> Vec<Segment> {
    let count = dice.below(MOST_SEGMENTS + 1);
    match dice.below(8) {
        0 => anything(dice, count),
        1 => instants(dice, count),
        2 | 3 => tiled(dice, count, 12.0),
        _ => even(dice),
    }
}

/// No length is the difference of two that are not finite: the sign of its NaN would be the processor's.
fn with_sure_length(segment: Segment) -> Segment {
    let sure = segment.start.is_finite() || segment.end.is_finite();
    Segment { start: if sure { segment.start } else { 0.0 }, ..segment }
}

/// The key of a segment, or any.
fn key(dice: &mut Dice, segments: &[Segment]) -> u8 {
    if segments.is_empty() || dice.one_in(3) { dice.key() } else { dice.one_of(segments).key }
}

/// At the coverage, where it is just enough, a step beside either, or any.
fn threshold(dice: &mut Dice, reported: u8, segments: &[Segment]) -> f32 {
    let coverage = named(reported, f32::MIN_POSITIVE, segments).map(|(_, coverage)| coverage);
    let Some(coverage) = coverage.filter(|_| !dice.one_in(4)) else {
        return dice.one_of(&THRESHOLDS);
    };
    let border = if dice.one_in(3) { coverage } else { coverage + f32::EPSILON };
    dice.one_of(&[border.next_down(), border, border.next_up()])
}

fn for_reported(dice: &mut Dice) -> Told {
    let segments: Vec<_> = segments(dice).into_iter().map(with_sure_length).collect();
    Told { key: key(dice, &segments), threshold: 0.0, segments }
}

fn for_alternate(dice: &mut Dice) -> Told {
    let segments = segments(dice);
    let key = key(dice, &segments);
    Told { key, threshold: threshold(dice, key, &segments), segments }
}

fn lists(seed: u64, stream: u64, make: fn(&mut Dice) -> Told) -> impl Iterator<Item = Told> {
    let mut dice = Dice::new(seed, stream);
    (0..LISTS).map(move |_| make(&mut dice))
}

pub fn compare(groups: &mut Groups) {
    let seed = groups.seed;
    let our_reported = |told: Told| reported(told.key, &rows(&told.segments));
    groups.group("reported keys", lists(seed, STREAM, for_reported), our_reported, their_reported);
    groups.group("alternates", lists(seed, STREAM + 1, for_alternate), our_alternate, their_alternate);
}
