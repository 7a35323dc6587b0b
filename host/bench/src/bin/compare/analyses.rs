//! Analyses as a card is written from them: such as a layout holds, and such as break a rule, so that none does.
use crate::card_model::{LAYOUT_1, LAYOUT_2, LAYOUTS, Layout};
use crate::packed::{LONGEST, exact_milliseconds};
use bench::inputs::random::patterns;
use std::ops::RangeInclusive;
use ulyptesh::calls::{CardFields, NO_KEY};

/// A card's layout and its number of segments.
pub type Kind = (Layout, usize);

/// An analysis that owns its lists, and how many bytes are lent for its card.
#[derive(Debug, Clone)]
pub struct Told {
    pub key: u32,
    pub dsp_key: u32,
    pub alternate: u32,
    pub coverage: f32,
    pub confidence: f32,
    pub starts: Vec<f64>,
    pub ends: Vec<f64>,
    pub keys: Vec<u8>,
    pub confidences: Vec<f32>,
    pub lent: usize,
}

impl Told {
    pub fn as_lent(&self) -> CardFields<'_> {
        CardFields {
            key: self.key,
            dsp_key: self.dsp_key,
            alternate: self.alternate,
            coverage: self.coverage,
            confidence: self.confidence,
            starts: &self.starts,
            ends: &self.ends,
            keys: &self.keys,
            confidences: &self.confidences,
        }
    }

    /// Ends in milliseconds become the segments' borders, each moved by less than a millisecond.
    fn set_ends(&mut self, milliseconds: impl Iterator<Item = u64>, moves: &mut impl Iterator<Item = u64>) {
        self.ends = milliseconds.map(|end| moved(end, moves)).collect();
        self.starts = std::iter::once(0.0).chain(self.ends.iter().copied()).take(self.ends.len()).collect();
    }
}

/// A number of milliseconds in seconds, a step beside that, or on the way to the next one; never below 0.
fn moved(milliseconds: u64, random: &mut impl Iterator<Item = u64>) -> f64 {
    let seconds = milliseconds as f64 / 1000.0;
    match (milliseconds, below(6, random)) {
        (_, 0) => seconds,
        (_, 1) => seconds.next_up(),
        (0, 2) => -0.0,
        (_, 2) => seconds.next_down(),
        _ => seconds + fraction(random) * 0.000_999,
    }
}

/// From 0 up to, not including, 1.
fn fraction(random: &mut impl Iterator<Item = u64>) -> f64 {
    (next(random) >> 11) as f64 / (1u64 << 53) as f64
}

fn next(random: &mut impl Iterator<Item = u64>) -> u64 {
    random.next().expect("an endless run")
}

fn below(bound: u64, random: &mut impl Iterator<Item = u64>) -> u64 {
    next(random) % bound
}

/// From 0 to 1, the ends and the neighbours of thousandths among them.
fn part(random: &mut impl Iterator<Item = u64>) -> f32 {
    let thousandth = below(1001, random) as f32 / 1000.0;
    match below(6, random) {
        0 => 0.0,
        1 => 1.0,
        2 => thousandth.next_up().min(1.0),
        3 => thousandth.next_down().max(0.0),
        4 => thousandth,
        _ => fraction(random) as f32,
    }
}

/// Of each layout every number of segments up to so many. A card without segments is of layout 1.
pub fn kinds(most: usize) -> Vec<Kind> {
    let of =
        |layout: Layout, least| (least..=most.min(layout.most_segments)).map(move |count| (layout, count));
    of(LAYOUT_1, 0).chain(of(LAYOUT_2, 1)).collect()
}

/// Last ends with which a card is of this kind, moved or not.
fn last_ends((layout, count): Kind) -> RangeInclusive<u64> {
    let is_long_alone = layout == LAYOUT_2 && count <= LAYOUT_1.most_segments;
    let least = if is_long_alone { LAYOUT_1.last_end + 2 } else { 2 * count as u64 };
    least..=layout.last_end
}

/// The first of a range, its last, or any.
fn one_of(range: RangeInclusive<u64>, random: &mut impl Iterator<Item = u64>) -> u64 {
    let (first, last) = range.into_inner();
    match below(4, random) {
        0 => first,
        1 => last,
        _ => first + below(last - first + 1, random),
    }
}

/// Milliseconds that rise from above 1 to the last end, two apart at least: an end that is moved down stays behind the
/// one before it.
fn rising(count: usize, last: u64, random: &mut impl Iterator<Item = u64>) -> Vec<u64> {
    let room = last / count as u64;
    let mut end = 0;
    let before = (1..count).map(|_| {
        end += 2 + below(room - 1, random);
        end
    });
    before.chain([last]).collect()
}

/// The empty analysis: no key at all.
fn silent(lent: usize) -> Told {
    Told {
        key: NO_KEY,
        dsp_key: NO_KEY,
        alternate: NO_KEY,
        coverage: 0.0,
        confidence: 0.0,
        starts: vec![],
        ends: vec![],
        keys: vec![],
        confidences: vec![],
        lent,
    }
}

/// An analysis whose card is of this kind; the lent bytes may be too few.
pub fn writable((layout, count): Kind, random: &mut impl Iterator<Item = u64>) -> Told {
    let needed = layout.length_of(count);
    let lent =
        [needed, needed - 1, needed + 5, below(needed as u64, random) as usize][below(4, random) as usize];
    let mut told = silent(lent);
    if count == 0 {
        return told;
    }
    told.key = below(24, random) as u32;
    told.dsp_key = below(24, random) as u32;
    told.confidence = part(random);
    if below(2, random) == 0 {
        told.alternate = (told.key + 1 + below(23, random) as u32) % 24;
        told.coverage = part(random);
    }
    let lone_at_zero = (layout, count) == (LAYOUT_1, 1) && below(4, random) == 0;
    let last = if lone_at_zero { 0 } else { one_of(last_ends((layout, count)), random) };
    told.set_ends(rising(count, last, random).into_iter(), random);
    told.keys = (0..count).map(|_| below(24, random) as u8).collect();
    told.confidences = (0..count).map(|_| part(random)).collect();
    told
}

/// Analyses whose cards are of these kinds.
pub fn all_writable(seed: u64, stream: u64, kinds: Vec<Kind>) -> impl Iterator<Item = Told> {
    let mut random = patterns(seed, stream);
    kinds.into_iter().map(move |kind| writable(kind, &mut random))
}

/// A rule of the card, and what breaks it in an analysis of several segments, given any number.
pub struct Breach {
    pub rule: &'static str,
    pub breaks: fn(&mut Told, u64),
}

/// A number that is not from 0 to 1.
fn no_part(any: u64) -> f32 {
    let above = 1.0 + (any % 1000 + 1) as f32 / 1000.0;
    [
        f32::NAN,
        f32::INFINITY,
        f32::NEG_INFINITY,
        above,
        2.0f32.powi((any % 100) as i32 + 1),
        -above,
        -1e-20,
        1.001,
    ][(any >> 32) as usize % 8]
}

/// A number above the highest that a key may have.
fn no_key(highest: u64, any: u64) -> u32 {
    (highest + 1 + any % (u64::from(u32::MAX) - highest)) as u32
}

fn place(told: &Told, any: u64) -> usize {
    any as usize % told.ends.len()
}

fn below_zero(any: u64) -> f64 {
    [-5e-324, -0.000_4, -0.000_501, -1.0, f64::NEG_INFINITY][(any % 5) as usize]
}

/// One segment is left.
fn keep_first(told: &mut Told) {
    told.starts.truncate(1);
    told.ends.truncate(1);
    told.keys.truncate(1);
    told.confidences.truncate(1);
}

/// Each rule, broken alone.
pub const BREACHES: [Breach; 31] = [
    Breach { rule: "key above 24", breaks: |told, any| told.key = no_key(24, any) },
    Breach { rule: "DSP key above 24", breaks: |told, any| told.dsp_key = no_key(24, any) },
    Breach { rule: "alternate above 24", breaks: |told, any| told.alternate = no_key(24, any) },
    Breach { rule: "key 25", breaks: |told, _| told.key = 25 },
    Breach {
        rule: "coverage no part",
        breaks: |told, any| {
            told.alternate = (told.key + 1) % 24;
            told.coverage = no_part(any);
        },
    },
    Breach { rule: "confidence no part", breaks: |told, any| told.confidence = no_part(any) },
    Breach {
        rule: "a segment's confidence no part",
        breaks: |told, any| {
            let at = place(told, any);
            told.confidences[at] = no_part(any);
        },
    },
    Breach {
        rule: "a segment's key missing",
        breaks: |told, any| {
            let at = place(told, any);
            told.keys[at] = 24;
        },
    },
    Breach {
        rule: "a segment's key above 24",
        breaks: |told, any| {
            let at = place(told, any);
            told.keys[at] = 25 + (any >> 32) as u8 % 231;
        },
    },
    Breach {
        rule: "first start not 0",
        breaks: |told, any| {
            told.starts[0] = [f64::MIN_POSITIVE, -1.0, f64::NAN, 1e-9, 5e-324][(any % 5) as usize];
        },
    },
    Breach {
        rule: "a start just after the end before",
        breaks: |told, any| {
            let at = 1 + any as usize % (told.ends.len() - 1);
            told.starts[at] = told.starts[at].next_up();
        },
    },
    Breach {
        rule: "a start just before the end before",
        breaks: |told, any| {
            let at = 1 + any as usize % (told.ends.len() - 1);
            told.starts[at] = told.starts[at].next_down();
        },
    },
    Breach {
        rule: "a start not a number",
        breaks: |told, any| {
            let at = place(told, any);
            told.starts[at] = f64::NAN;
        },
    },
    Breach {
        rule: "an end in the millisecond of the one before",
        breaks: |told, any| {
            let at = 1 + any as usize % (told.ends.len() - 1);
            let millisecond = exact_milliseconds(told.ends[at - 1]) as f64;
            told.ends[at - 1] = (millisecond + 0.4) / 1000.0;
            told.ends[at] = (millisecond + [0.4, 0.6, 0.9][(any >> 32) as usize % 3]) / 1000.0;
            chain(told);
        },
    },
    Breach {
        rule: "an end before the one before",
        breaks: |told, any| {
            let at = 1 + any as usize % (told.ends.len() - 1);
            told.ends[at] = told.ends[at - 1] - 0.001;
            chain(told);
        },
    },
    Breach {
        rule: "first of several ends at 0",
        breaks: |told, any| {
            told.ends[0] = [0.0, -0.0, 0.000_5, 0.001f64.next_down()][(any % 4) as usize];
            chain(told);
        },
    },
    Breach {
        rule: "an end below 0",
        breaks: |told, any| {
            told.ends[0] = below_zero(any);
            chain(told);
        },
    },
    Breach {
        rule: "a lone end below 0",
        breaks: |told, any| {
            keep_first(told);
            told.ends[0] = below_zero(any);
        },
    },
    Breach {
        rule: "last end a millisecond above 86,400 s",
        breaks: |told, any| {
            *told.ends.last_mut().expect("several") =
                [86_400.001f64.next_up(), 86_400.002, 1e300, f64::INFINITY][(any % 4) as usize];
            chain(told);
        },
    },
    Breach {
        rule: "last end not a number",
        breaks: |told, _| {
            *told.ends.last_mut().expect("several") = f64::NAN;
            chain(told);
        },
    },
    Breach { rule: "key missing", breaks: |told, _| told.key = NO_KEY },
    Breach { rule: "DSP key missing", breaks: |told, _| told.dsp_key = NO_KEY },
    Breach {
        rule: "segments missing",
        breaks: |told, _| {
            told.starts.clear();
            told.ends.clear();
            told.keys.clear();
            told.confidences.clear();
        },
    },
    Breach {
        rule: "no key but a DSP key",
        breaks: |told, any| *told = Told { dsp_key: any as u32 % 24, ..silent(told.lent) },
    },
    Breach {
        rule: "no key but an alternate",
        breaks: |told, any| *told = Told { alternate: any as u32 % 24, ..silent(told.lent) },
    },
    Breach {
        rule: "no key but a confidence",
        breaks: |told, any| {
            *told = Told { confidence: (any % 999 + 2) as f32 / 1000.0, ..silent(told.lent) };
        },
    },
    Breach {
        rule: "no alternate but a coverage",
        breaks: |told, any| {
            told.alternate = NO_KEY;
            told.coverage = (any % 999 + 2) as f32 / 1000.0;
        },
    },
    Breach { rule: "the alternate is the key", breaks: |told, _| told.alternate = told.key },
    Breach {
        rule: "lists of unequal length, one shorter",
        breaks: |told, any| match any % 4 {
            0 => drop(told.starts.pop()),
            1 => drop(told.ends.pop()),
            2 => drop(told.keys.pop()),
            _ => drop(told.confidences.pop()),
        },
    },
    Breach {
        rule: "lists of unequal length, one longer",
        breaks: |told, any| match any % 4 {
            0 => told.starts.push(*told.ends.last().expect("several")),
            1 => told.ends.push(LONGEST as f64),
            2 => told.keys.push(0),
            _ => told.confidences.push(0.5),
        },
    },
    Breach {
        rule: "4,096 segments and more",
        breaks: |told, any| {
            let count = LAYOUT_2.most_segments + 1 + any as usize % 3;
            told.ends = (1..=count).map(|end| end as f64).collect();
            told.starts = (0..count).map(|end| end as f64).collect();
            told.keys = vec![3; count];
            told.confidences = vec![0.5; count];
        },
    },
];

/// Each start is the end before it again.
fn chain(told: &mut Told) {
    let ends = &told.ends;
    told.starts.iter_mut().skip(1).zip(ends).for_each(|(start, end)| *start = *end);
}

/// Analyses of 2 to 12 segments for a card of either layout, each with the rule broken.
pub fn broken(seed: u64, stream: u64, count: usize, breach: &'static Breach) -> impl Iterator<Item = Told> {
    let mut random = patterns(seed, stream);
    (0..count).map(move |_| {
        let layout = LAYOUTS[below(2, &mut random) as usize];
        let segments = 2 + below(11, &mut random) as usize;
        let mut told = writable((layout, segments), &mut random);
        (breach.breaks)(&mut told, next(&mut random));
        told
    })
}
