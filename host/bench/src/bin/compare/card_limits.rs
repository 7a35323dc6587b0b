//! Cards whose number of segments or last end lies about a layout's limits: what they say, and analyses that tell it.
use crate::analyses::Told;
use crate::card_calls::Writing;
use crate::card_model::{LAYOUTS, MISSING, Meaning, Segment, WHOLE};
use ulyptesh::calls::NO_KEY;

/// A meaning's last end has so many times in an analysis, and so many rooms are lent for its card.
const TIMES: usize = 4;
const ROOMS: usize = 6;

/// So many analyses of each meaning, and so many writings of its numbers.
pub const ANALYSES: usize = TIMES * ROOMS;
pub const WRITINGS: usize = ROOMS;

/// Few segments, and about as many as each layout holds.
fn counts() -> impl Iterator<Item = usize> {
    let about_most = LAYOUTS.map(|layout| layout.most_segments - 1..=layout.most_segments + 1);
    [1, 2, 12].into_iter().chain(about_most.into_iter().flatten())
}

/// Last ends about each layout's.
fn last_ends() -> impl Iterator<Item = u64> {
    LAYOUTS.into_iter().flat_map(|layout| layout.last_end - 1..=layout.last_end + 1)
}

/// Segments that end two milliseconds apart, just before the last end or as early as they can.
fn meaning(count: usize, last: u64, early: bool) -> Meaning {
    let before = count as u64 - 1;
    let first = if early { 2 } else { last - 2 * before };
    let ends = (0..before).map(|place| first + 2 * place).chain([last]);
    let segment = |end| Segment { end, key: end % MISSING, confidence: end % (WHOLE + 1) };
    let segments = ends.map(segment).collect();
    Meaning { key: 3, dsp_key: 4, alternate: MISSING, coverage: 0, confidence: 500, segments }
}

/// Each number of segments with each last end.
pub fn meanings() -> Vec<Meaning> {
    let ends = |count| last_ends().map(move |last| (count, last));
    let both = |(count, last)| [true, false].map(|early| meaning(count, last, early));
    counts().flat_map(ends).flat_map(both).collect()
}

/// As many bytes as the card has in each layout, one fewer and one more.
fn rooms(count: usize) -> [usize; ROOMS] {
    let [one, two] = LAYOUTS.map(|layout| layout.length_of(count));
    [one - 1, one, one + 1, two - 1, two, two + 1]
}

/// A millisecond in seconds with the numbers beside it, and the last number before the next one.
fn times(millisecond: u64) -> [f64; TIMES] {
    let [this, next] = [0, 1].map(|more| (millisecond + more) as f64 / 1000.0);
    [this.next_down(), this, this.next_up(), next.next_down()]
}

/// An analysis with these segments but for the end of the last one; the others end inside their millisecond.
fn told(said: &Meaning, last: f64, lent: usize) -> Told {
    let inside = |number: u64| (number as f64 + 0.5) / 1000.0;
    let mut ends: Vec<f64> = said.segments.iter().map(|segment| inside(segment.end)).collect();
    *ends.last_mut().expect("a segment") = last;
    Told {
        key: said.key as u32,
        dsp_key: said.dsp_key as u32,
        alternate: NO_KEY,
        coverage: 0.0,
        confidence: inside(said.confidence) as f32,
        starts: std::iter::once(0.0).chain(ends.iter().copied()).take(ends.len()).collect(),
        ends,
        keys: said.segments.iter().map(|segment| segment.key as u8).collect(),
        confidences: said.segments.iter().map(|segment| segment.confidence as f32 / 1000.0).collect(),
        lent,
    }
}

/// An analysis of one of the meanings, by its number: the last end at each of its times, and each room.
pub fn analysis(meanings: &[Meaning], nth: usize) -> Told {
    let said = &meanings[nth / ANALYSES];
    let last = said.segments.last().expect("a segment").end;
    told(said, times(last)[nth / ROOMS % TIMES], rooms(said.segments.len())[nth % ROOMS])
}

/// A writing of one of the meanings, by its number: each room.
pub fn writing(meanings: &[Meaning], nth: usize) -> Writing {
    let said = &meanings[nth / WRITINGS];
    Writing::of(said, rooms(said.segments.len())[nth % ROOMS])
}
