//! Lists of segments from a seed, as lent rows and as the oracle has them.
use bench::inputs::dice::Dice;
use bench::oracle::key_lime::KeySegment;
use bench::oracle::key_lime::expose::{key_from_index, key_number};
use bench::oracle::windows_behind::{Counted, joined};
use ulyptesh::calls::SegmentRows;

/// Start and end in seconds, key number, confidence, and how many windows stand behind it.
#[derive(Debug, Clone, Copy, PartialEq)]
pub struct Segment {
    pub start: f64,
    pub end: f64,
    pub key: u8,
    pub confidence: f32,
    pub windows: u32,
}

/// What a row holds that nothing was written to; its number is a key's.
const UNTOUCHED: Segment =
    Segment { start: -7.25, end: -8.25, key: 23, confidence: -9.25, windows: 0xa5a5_a5a5 };

/// What a row holds that joining has emptied.
const EMPTIED: Segment = Segment { start: 0.0, end: 0.0, key: 0, confidence: 0.0, windows: 0 };

impl From<&Segment> for KeySegment {
    fn from(segment: &Segment) -> Self {
        let Segment { start, end, key, confidence, .. } = *segment;
        Self { start_seconds: start, end_seconds: end, key: key_from_index(key.into()), confidence }
    }
}

impl From<&Segment> for Counted {
    fn from(segment: &Segment) -> Self {
        Self { segment: segment.into(), windows: segment.windows }
    }
}

impl From<&Counted> for Segment {
    fn from(counted: &Counted) -> Self {
        let KeySegment { start_seconds, end_seconds, key, confidence } = counted.segment;
        let (start, end, windows) = (start_seconds, end_seconds, counted.windows);
        Self { start, end, key: key_number(key), confidence, windows }
    }
}

/// As the oracle has them, with the windows behind each or without.
pub fn as_theirs<A: for<'a> From<&'a Segment>>(segments: &[Segment]) -> Vec<A> {
    segments.iter().map(A::from).collect()
}

/// Rows that nothing was written to, so many of each list.
pub fn untouched_segments(room: [usize; 5]) -> SegmentRows {
    SegmentRows {
        starts: vec![UNTOUCHED.start; room[0]],
        ends: vec![UNTOUCHED.end; room[1]],
        keys: vec![UNTOUCHED.key; room[2]],
        confidences: vec![UNTOUCHED.confidence; room[3]],
        counts: vec![UNTOUCHED.windows; room[4]],
    }
}

/// Writes the segments from the front of the rows.
pub fn put_segments(segments: impl Iterator<Item = Segment>, rows: &mut SegmentRows) {
    for (place, segment) in segments.enumerate() {
        rows.starts[place] = segment.start;
        rows.ends[place] = segment.end;
        rows.keys[place] = segment.key;
        rows.confidences[place] = segment.confidence;
        rows.counts[place] = segment.windows;
    }
}

/// Writes what joining has left of these segments, which is what the oracle has left, the emptied rows behind it.
pub fn put_joined(segments: &[Counted], minimum: f64, theirs: &[KeySegment], rows: &mut SegmentRows) {
    let (left, emptied) = (joined(segments, minimum, theirs), std::iter::repeat(EMPTIED));
    put_segments(left.iter().map(Segment::from).chain(emptied).take(segments.len()), rows);
}

fn confidence(dice: &mut Dice) -> f32 {
    if dice.one_in(20) { f32::NAN } else { dice.unit() }
}

/// Segments of these lengths and keys, one behind the other from 0 on.
fn in_a_row(dice: &mut Dice, lengths_and_keys: &[(f64, u8)]) -> Vec<Segment> {
    let mut end = 0.0;
    let next = |&(length, key): &(f64, u8)| {
        let start = end;
        end += length;
        Segment { start, end, key, confidence: confidence(dice), windows: 0 }
    };
    lengths_and_keys.iter().map(next).collect()
}

/// One to four lengths: whole and half seconds, at the minimum and beside it, a third, none.
fn few_lengths(dice: &mut Dice, minimum: f64) -> Vec<f64> {
    let near = if (0.0..1e6).contains(&minimum) { minimum } else { 12.0 };
    let third = (1 + dice.below(60)) as f64 / 3.0;
    let half = dice.below(60) as f64 / 2.0;
    let choices = [0.0, 0.5, 1.0, half, third, near, near + 0.5, (near - 0.5).abs(), 2.0 * near];
    let beside = [near, near.next_up(), near.next_down().max(0.0), 0.0];
    let from = if dice.one_in(8) { &beside[..] } else { &choices[..] };
    (0..1 + dice.below(4)).map(|_| dice.one_of(from)).collect()
}

/// Segments from 0 on without gaps, many as long as others, some as long as the minimum.
pub fn tiled(dice: &mut Dice, count: usize, minimum: f64) -> Vec<Segment> {
    let (lengths, keys) = (few_lengths(dice, minimum), dice.few_keys());
    let drawn: Vec<_> = (0..count).map(|_| (dice.one_of(&lengths), dice.one_of(&keys))).collect();
    in_a_row(dice, &drawn)
}

/// Every key has the same lengths, in any order, so that their seconds tie.
pub fn even(dice: &mut Dice) -> Vec<Segment> {
    let (lengths, keys) = (few_lengths(dice, 12.0), dice.few_keys());
    let mut drawn: Vec<_> =
        keys.iter().flat_map(|&key| lengths.iter().map(move |&length| (length, key))).collect();
    dice.shuffle(&mut drawn);
    in_a_row(dice, &drawn)
}

fn moment(dice: &mut Dice) -> f64 {
    const ODD: [f64; 9] =
        [f64::NAN, f64::INFINITY, f64::NEG_INFINITY, f64::MAX, f64::MIN, 1e300, 5e-324, -5e-324, 1e-17];
    if dice.one_in(6) { dice.one_of(&ODD) } else { dice.below(80) as f64 / 2.0 - 8.0 }
}

/// Gaps, overlaps, reversed ones, and moments that are no numbers or not finite; no -0.
pub fn anything(dice: &mut Dice, count: usize) -> Vec<Segment> {
    let keys = dice.few_keys();
    let drawn = |_| {
        let (start, end) = (moment(dice), moment(dice));
        Segment { start, end, key: dice.one_of(&keys), confidence: confidence(dice), windows: 0 }
    };
    (0..count).map(drawn).collect()
}

/// Each starts at 0 and lasts nothing, 2^-52 s or about that.
pub fn instants(dice: &mut Dice, count: usize) -> Vec<Segment> {
    const INSTANT: f64 = f64::EPSILON;
    let ends = [0.0, INSTANT / 2.0, INSTANT.next_down(), INSTANT, INSTANT.next_up(), 2.0 * INSTANT];
    let (keys, few) = (dice.few_keys(), [dice.one_of(&ends), dice.one_of(&ends)]);
    let drawn = |_| {
        let (key, confidence) = (dice.one_of(&keys), confidence(dice));
        Segment { start: 0.0, end: dice.one_of(&few), key, confidence, windows: 0 }
    };
    (0..count).map(drawn).collect()
}
