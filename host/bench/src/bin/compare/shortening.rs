//! Shortening, beside the oracle's `merge_short_segments` and the windows that the request's words add up.
use crate::groups::{Groups, compared_as_shown};
use crate::rows::windows_in_all;
use crate::segment_lists::{
    Segment, anything, as_theirs, put_joined, put_segments, tiled, untouched_segments,
};
use bench::inputs::dice::Dice;
use bench::oracle::key_lime::expose::merge_short_segments;
use bench::probe::segments::shorten;
use ulyptesh::calls::SegmentRows;

/// Streams of the seed from here on are the shortening's.
const STREAM: u64 = 60_000;

/// So many lists that tile, of any segments, and with windows that add up to about 2^32.
const TILED: usize = 100_000;
const ANY: usize = 10_000;
const ABOUT_TOO_MANY: usize = 20_000;

/// So many windows in all are refused: 32 bits would not hold them.
const TOO_MANY: u64 = 1 << 32;

const MOST_SEGMENTS: usize = 40;

const MINIMA: [f64; 11] = [0.0, 0.5, 1.0, 6.0, 12.0, 12.0, 12.0, 1e9, f64::INFINITY, -1.0, f64::NAN];

/// Segments in rows, of which some lists are longer by so many.
#[derive(Debug, Clone)]
struct Lent {
    minimum: f64,
    segments: Vec<Segment>,
    longer: [usize; 5],
}

compared_as_shown!(Lent);

impl Lent {
    fn windows_in_all(&self) -> u64 {
        self.segments.iter().map(|segment| u64::from(segment.windows)).sum()
    }

    /// A number is no key's, or there are too many windows.
    fn refused(&self) -> bool {
        self.segments.iter().any(|segment| segment.key > 23) || self.windows_in_all() >= TOO_MANY
    }
}

fn rows(lent: &Lent) -> SegmentRows {
    let mut rows = untouched_segments(lent.longer.map(|more| lent.segments.len() + more));
    put_segments(lent.segments.iter().copied(), &mut rows);
    rows
}

fn ours(lent: Lent) -> (usize, SegmentRows) {
    let mut rows = rows(&lent);
    (shorten(lent.minimum, &mut rows), rows)
}

/// The oracle's segments and the rows that it emptied; all as they were where the list is refused.
fn theirs(lent: Lent) -> (usize, SegmentRows) {
    let mut rows = rows(&lent);
    if lent.refused() {
        return (0, rows);
    }
    let mut left = as_theirs(&lent.segments);
    merge_short_segments(&mut left, lent.minimum);
    put_joined(&as_theirs(&lent.segments), lent.minimum, &left, &mut rows);
    (left.len(), rows)
}

/// A few windows in all, or any number that is not refused.
fn not_too_many(dice: &mut Dice) -> u64 {
    let limit = dice.one_of(&[10, 400, TOO_MANY as usize]);
    dice.below(limit) as u64
}

/// The most windows that are not refused, one less, too many, or far too many.
fn about_too_many(dice: &mut Dice) -> u64 {
    dice.one_of(&[TOO_MANY - 2, TOO_MANY - 1, TOO_MANY, TOO_MANY + 1, 2 * TOO_MANY - 2])
}

/// So many windows in all, any part of them behind each segment and the rest behind the last, as far as 32 bits go.
fn share_out(dice: &mut Dice, mut windows: u64, segments: &mut [Segment]) {
    let count = segments.len();
    for (place, segment) in segments.iter_mut().enumerate() {
        let most = 2 * windows / (count - place) as u64;
        let share = if place + 1 == count { windows } else { dice.below(most as usize + 1) as u64 };
        segment.windows = share.min(u32::MAX.into()) as u32;
        windows -= u64::from(segment.windows);
    }
}

/// One in four has lists that are not equally long, one in thirty a number that is no key's.
fn lent(dice: &mut Dice, minimum: f64, mut segments: Vec<Segment>) -> Lent {
    let mut longer = [0; 5];
    if dice.one_in(4) {
        longer = longer.map(|_| dice.below(3));
        longer[dice.below(5)] = 0;
    }
    if dice.one_in(30) && !segments.is_empty() {
        let place = dice.below(segments.len());
        segments[place].key = dice.one_of(&[24, 25, 36, 128, 255]);
    }
    Lent { minimum, segments, longer }
}

fn lists(
    seed: u64,
    stream: u64,
    make: fn(&mut Dice, usize, f64) -> Vec<Segment>,
    windows: fn(&mut Dice) -> u64,
) -> impl Iterator<Item = Lent> {
    let mut dice = Dice::new(seed, stream);
    std::iter::repeat_with(move || {
        let (count, minimum) = (1 + dice.below(MOST_SEGMENTS), dice.one_of(&MINIMA));
        let mut segments = make(&mut dice, count, minimum);
        let windows = windows(&mut dice);
        share_out(&mut dice, windows, &mut segments);
        lent(&mut dice, minimum, segments)
    })
}

/// The windows behind all segments that are left.
fn windows_left(lent: Lent) -> u64 {
    let (left, rows) = ours(lent);
    windows_in_all(&rows, left)
}

pub fn compare(groups: &mut Groups) {
    let seed = groups.seed;
    let of_tiled = || lists(seed, STREAM, tiled, not_too_many).take(TILED);
    let of_any = lists(seed, STREAM + 1, |dice, count, _| anything(dice, count), not_too_many);
    let of_many = lists(seed, STREAM + 2, tiled, about_too_many).take(ABOUT_TOO_MANY);
    let no_rows = MINIMA.map(|minimum| Lent { minimum, segments: vec![], longer: [0, 1, 2, 0, 3] });
    groups.group("shortening, segments that tile", of_tiled(), ours, theirs);
    groups.group("shortening, any segments", of_any.take(ANY), ours, theirs);
    groups.group("shortening, no segments", no_rows.into_iter(), ours, theirs);
    groups.group("shortening, windows that add up to about 2^32", of_many, ours, theirs);
    let taken = of_tiled().filter(|lent| !lent.refused());
    groups.group("shortening, windows in all", taken, windows_left, |lent| lent.windows_in_all());
}
