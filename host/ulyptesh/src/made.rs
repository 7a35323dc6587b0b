//! Analyses and cards that are made for tests, and what is told of them by other means.
use crate::calls::{NO_KEY, PackedFields, write_packed_card};
use crate::card::{CardError, written};
use crate::found::{Alternate, Analysis, Segment};
use crate::keys::Key;
use std::iter;

/// So many analyses are made, each with a segment more than the one before it, up to twelve.
const ANALYSES: usize = 1_300;

/// An analysis that a card holds, by columns.
pub struct Told {
    pub key: u32,
    pub dsp_key: u32,
    pub alternate: u32,
    pub coverage: f32,
    pub confidence: f32,
    pub starts: Vec<f64>,
    pub ends: Vec<f64>,
    pub keys: Vec<u8>,
    pub confidences: Vec<f32>,
}

/// The generator splitmix64.
pub struct Random(pub u64);

impl Random {
    pub fn below(&mut self, limit: u64) -> u64 {
        self.0 = self.0.wrapping_add(0x9e37_79b9_7f4a_7c15);
        let once = (self.0 ^ (self.0 >> 30)).wrapping_mul(0xbf58_476d_1ce4_e5b9);
        let twice = (once ^ (once >> 27)).wrapping_mul(0x94d0_49bb_1331_11eb);
        (twice ^ (twice >> 31)) % limit
    }

    fn key(&mut self) -> u8 {
        self.below(24) as u8
    }

    fn part(&mut self) -> f32 {
        self.below(1_001) as f32 / 1_000.0
    }
}

/// Without segments there is no key, and one in two keys has an alternate. Segments are of up to a minute or, in one of
/// two tracks, of up to two hours less a little, so that twelve of them fit into a day.
pub fn told(random: &mut Random, count: usize) -> Told {
    let (mut end, longest) = (0, [60_000_000, 7_190_000_000][random.below(2) as usize]);
    // two milliseconds further at least, every other then cut to whole ones: no two ends are in one
    let mut later = |nth: usize| {
        end += 2_000 + random.below(longest);
        end -= if nth.is_multiple_of(2) { end % 1_000 } else { 0 };
        end as f64 / 1_000_000.0
    };
    let ends: Vec<f64> = (0..count).map(&mut later).collect();
    let key = if count == 0 { NO_KEY } else { random.key().into() };
    let other = key != NO_KEY && random.below(2) == 0;
    Told {
        key,
        dsp_key: if count == 0 { NO_KEY } else { random.key().into() },
        alternate: if other { (key + 1 + random.below(23) as u32) % 24 } else { NO_KEY },
        coverage: if other { random.part() } else { 0.0 },
        confidence: if count == 0 { 0.0 } else { random.part() },
        starts: iter::once(0.0).chain(ends.iter().copied()).take(count).collect(),
        keys: (0..count).map(|_| random.key()).collect(),
        confidences: (0..count).map(|_| random.part()).collect(),
        ends,
    }
}

pub fn all_told() -> impl Iterator<Item = Told> {
    let mut random = Random(44_100);
    (0..ANALYSES).map(move |nth| told(&mut random, nth % 13))
}

pub fn analysis(told: &Told) -> Analysis {
    let segment = |at: usize| Segment {
        start: told.starts[at],
        end: told.ends[at],
        key: Key::ALL[usize::from(told.keys[at])],
        confidence: told.confidences[at],
        windows: 0,
    };
    let key = |number: u32| Key::try_from(number).ok();
    Analysis {
        key: key(told.key),
        dsp_key: key(told.dsp_key),
        alternate: key(told.alternate).map(|key| Alternate { key, coverage: told.coverage }),
        confidence: told.confidence,
        shapeless: false,
        chroma: [0.0; 12],
        segments: (0..told.ends.len()).map(segment).collect(),
        loud_frame_count: 0,
        estimate_count: 0,
        shapeless_estimate_count: 0,
        duration: told.ends.last().copied().unwrap_or_default(),
    }
}

/// The card of segments in A minor up to these milliseconds.
pub fn card_up_to(ends: &[u32]) -> Result<Vec<u8>, CardError> {
    let (key, count) = (if ends.is_empty() { NO_KEY } else { 21 }, ends.len());
    let fields = PackedFields {
        key,
        dsp_key: key,
        alternate: NO_KEY,
        coverage: 0,
        confidence: 0,
        starts: &[&[0], ends].concat()[..count],
        ends,
        keys: &vec![21; count],
        confidences: &vec![500; count],
    };
    written(|bytes| write_packed_card(&fields, bytes))
}

/// A millisecond for each of so many segments.
pub fn card_of_count(count: u32) -> Result<Vec<u8>, CardError> {
    card_up_to(&(1..=count).collect::<Vec<_>>())
}

/// As many segments lie before a point as end at or before it; none counts where the point is not on the track.
pub fn key_by_counting<Time: Copy + Default + PartialOrd>(
    ends: &[Time],
    keys: &[u8],
    point: Time,
) -> Option<u8> {
    let on_track = (Time::default()..=*ends.last()?).contains(&point);
    let before = ends.iter().filter(|end| **end <= point).count();
    on_track.then(|| keys[before.min(keys.len() - 1)])
}
