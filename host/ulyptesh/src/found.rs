//! What an analysis finds in a track.
use crate::calls::CardFields;
use crate::card::{CardError, card, column, number};
use crate::chroma::Chroma;
use crate::keys::Key;

/// A part of the track in one key.
#[non_exhaustive]
#[derive(Debug, Clone, Copy, PartialEq)]
pub struct Segment {
    /// Where it starts, in seconds.
    pub start: f64,
    /// Where it ends, in seconds.
    pub end: f64,
    /// The key that most of its windows tell; where short segments were joined, the earliest one's.
    pub key: Key,
    /// The mean of its windows' confidences, from 0 to 1; where short segments were joined, the earliest one's.
    pub confidence: f32,
    /// How many windows' estimates it rests on, those of all that were joined; 0 for the one segment of a track without
    /// estimates.
    pub windows: u32,
}

/// Another key that much of the track is in.
#[non_exhaustive]
#[derive(Debug, Clone, Copy, PartialEq)]
pub struct Alternate {
    /// The key.
    pub key: Key,
    /// The part of the track that its segments take, from 0 to 1.
    pub coverage: f32,
}

/// The answer about one track. One that is too short or too faint has no key, no segments, and zeros for confidence
/// and chroma; it is not called shapeless.
#[non_exhaustive]
#[derive(Debug, Clone, PartialEq)]
pub struct Analysis {
    /// The reported key. Of several segments it is the longest one's; where there is one segment it is the key of the
    /// whole track's chroma, which may be another than the segment's.
    pub key: Option<Key>,
    /// The key by profiles alone, before any reranking; the library reranks nothing, so it is the key.
    pub dsp_key: Option<Key>,
    /// Another key that much of the track is in. A lone segment of another key than the reported one is all of the
    /// track, so with the usual threshold its key is then the alternate, with a coverage of 1.
    pub alternate: Option<Alternate>,
    /// How clearly the whole track's chroma tells its key, from 0 to 1; low where the track changes its key.
    pub confidence: f32,
    /// Whether the whole track's chroma [has no shape](crate::is_shapeless). The confidence then says little, and so
    /// does the key where there is one segment.
    pub shapeless: bool,
    /// Of the whole track, normalised.
    pub chroma: Chroma,
    /// In order and without gaps, from 0 to the end of the track; none without a key.
    pub segments: Vec<Segment>,
    /// How many frames were loud.
    pub loud_frame_count: usize,
    /// How many windows told a key: the sum of the segments' [`windows`](Segment::windows).
    pub estimate_count: usize,
    /// How many of these windows have a chroma without shape.
    pub shapeless_estimate_count: usize,
    /// The length of the track in seconds.
    pub duration: f64,
}

impl Analysis {
    /// The key that sounds at a mix point, in seconds; none outside the track.
    pub fn key_at(&self, seconds: f64) -> Option<Key> {
        let around = |segment: &&Segment| segment.start <= seconds && seconds < segment.end;
        let at_the_end = || self.segments.last().filter(|last| last.end == seconds);
        self.segments.iter().find(around).or_else(at_the_end).map(|segment| segment.key)
    }

    /// The key of the only segment, where that is another than the reported one.
    pub fn lone_other_key(&self) -> Option<Key> {
        match self.segments[..] {
            [Segment { key, .. }] if Some(key) != self.key => Some(key),
            _ => None,
        }
    }

    /// The bytes of the key card, as a deck reads it; [`Card`](crate::Card) tells what it reads. Times are written in
    /// milliseconds, rounded down, so that no end lies after the audio.
    pub fn card(&self) -> Result<Vec<u8>, CardError> {
        let each = &self.segments;
        card(&CardFields {
            key: number(self.key),
            dsp_key: number(self.dsp_key),
            alternate: number(self.alternate.map(|alternate| alternate.key)),
            coverage: self.alternate.map_or(0.0, |alternate| alternate.coverage),
            confidence: self.confidence,
            starts: &column(each, |segment| segment.start),
            ends: &column(each, |segment| segment.end),
            keys: &column(each, |segment| segment.key.number()),
            confidences: &column(each, |segment| segment.confidence),
        })
    }
}

#[cfg(test)]
mod tests {
    use super::*;
    use crate::made::{Random, Told, all_told, analysis, key_by_counting, told};

    /// Each border with its neighbours, the middles between, and times that are not on the track.
    fn points(told: &Told) -> impl Iterator<Item = f64> {
        let borders = told.starts.iter().chain(&told.ends).flat_map(|&at| [at.next_down(), at, at.next_up()]);
        let middles = told.starts.iter().zip(&told.ends).map(|(start, end)| (start + end) / 2.0);
        let outside = [-0.0, -1.0, 1e6, f64::MAX, f64::INFINITY, f64::NEG_INFINITY, f64::NAN];
        borders.chain(middles).chain(outside)
    }

    #[test]
    fn mix_points_have_the_key_of_their_segment() {
        for told in all_told() {
            let found = analysis(&told);
            for point in points(&told) {
                let key = found.key_at(point).map(Key::number);
                assert_eq!(
                    key,
                    key_by_counting(&told.ends, &told.keys, point),
                    "{point} of {:?}",
                    found.segments
                );
            }
        }
    }

    #[test]
    fn a_card_is_that_of_the_fields() {
        for told in all_told() {
            let fields = CardFields {
                key: told.key,
                dsp_key: told.dsp_key,
                alternate: told.alternate,
                coverage: told.coverage,
                confidence: told.confidence,
                starts: &told.starts,
                ends: &told.ends,
                keys: &told.keys,
                confidences: &told.confidences,
            };
            let bytes = card(&fields).expect("no rule is broken");
            assert_eq!(analysis(&told).card(), Ok(bytes));
        }
    }

    #[test]
    fn a_lone_segment_may_be_in_another_key() {
        let mut found = analysis(&told(&mut Random(1), 1));
        let lone = found.segments[0];
        found.key = Some(lone.key);
        assert_eq!(found.lone_other_key(), None);
        for other in Key::ALL.into_iter().filter(|&key| key != lone.key) {
            found.key = Some(other);
            assert_eq!(found.lone_other_key(), Some(lone.key));
        }
        found.segments.push(lone);
        assert_eq!(found.lone_other_key(), None);
        found.segments.clear();
        assert_eq!(found.lone_other_key(), None);
    }
}
