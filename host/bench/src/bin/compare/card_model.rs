//! The key card by the request's words: a row of bits that is cut into numbers and joined from them in one of two
//! layouts, and each rule as a sentence.
use crate::analyses::Told;
use crate::key_names::name;
use crate::packed::{exact_milliseconds, exact_thousandths};

/// The number of a key that is missing.
pub const MISSING: u64 = 24;

/// The most thousandths.
pub const WHOLE: u64 = 1_000;

/// The refusals of reading.
pub const WRONG_LENGTH: u32 = 20;
pub const UNKNOWN_LAYOUT: u32 = 21;
pub const RULE_BROKEN: u32 = 22;
pub const NEEDLESS_LAYOUT: u32 = 23;
pub const TOO_FEW_ROWS: u32 = 24;

/// The bits of a layout's number, of a key and of thousandths.
const LAYOUT_BITS: u32 = 4;
pub const KEY_BITS: u32 = 5;
pub const PART_BITS: u32 = 10;

/// No card is shorter.
const SHORTEST: usize = 7;

/// A layout of the card: its number, the bits of the segment count and of an end, and its limits of both.
#[derive(Debug, Clone, Copy, PartialEq, Eq)]
pub struct Layout {
    pub number: u64,
    pub count_bits: u32,
    pub end_bits: u32,
    pub most_segments: usize,
    pub last_end: u64,
}

pub const LAYOUT_1: Layout =
    Layout { number: 1, count_bits: 10, end_bits: 24, most_segments: 1_023, last_end: 14_400_000 };

pub const LAYOUT_2: Layout =
    Layout { number: 2, count_bits: 12, end_bits: 27, most_segments: 4_095, last_end: 86_400_000 };

/// A card has the first of these that holds its meaning.
pub const LAYOUTS: [Layout; 2] = [LAYOUT_1, LAYOUT_2];

/// A segment's numbers, packed.
#[derive(Debug, Clone, Copy, PartialEq, Eq)]
pub struct Segment {
    pub end: u64,
    pub key: u64,
    pub confidence: u64,
}

/// What a card says, in thousandths and milliseconds, whether it keeps the rules or not.
#[derive(Debug, Clone, PartialEq, Eq)]
pub struct Meaning {
    pub key: u64,
    pub dsp_key: u64,
    pub alternate: u64,
    pub coverage: u64,
    pub confidence: u64,
    pub segments: Vec<Segment>,
}

/// A byte's bits, most significant first, then the next one's.
fn row_of(bytes: &[u8]) -> impl Iterator<Item = bool> {
    bytes.iter().flat_map(|byte| [7, 6, 5, 4, 3, 2, 1, 0].map(|place| byte >> place & 1 == 1))
}

/// The numbers of so many bits each, taken from the front of the row.
fn cut<const N: usize>(row: &mut impl Iterator<Item = bool>, widths: [u32; N]) -> [u64; N] {
    let mut bit = || u64::from(row.next().expect("as many bits as the length says"));
    widths.map(|width| (0..width).fold(0, |number, _| 2 * number + bit()))
}

/// The numbers at the end of the row, each in so many bits.
fn join<const N: usize>(row: &mut Vec<bool>, widths: [u32; N], numbers: [u64; N]) {
    for (width, number) in widths.into_iter().zip(numbers) {
        assert!(number < 1 << width, "{number} has more than {width} bits");
        row.extend((0..width).rev().map(|place| number & 1 << place != 0));
    }
}

/// Eight bits, or the last ones with zeros behind them.
fn byte(bits: &[bool]) -> u8 {
    (0..8).fold(0, |byte, place| byte << 1 | u8::from(bits.get(place) == Some(&true)))
}

impl Layout {
    fn numbered(number: u64) -> Option<Self> {
        LAYOUTS.into_iter().find(|layout| layout.number == number)
    }

    /// The bits of key, DSP key, alternate, coverage, confidence and count, behind the layout's number.
    pub fn header(self) -> [u32; 6] {
        [KEY_BITS, KEY_BITS, KEY_BITS, PART_BITS, PART_BITS, self.count_bits]
    }

    /// The bits of a segment's end, key and confidence.
    pub fn segment(self) -> [u32; 3] {
        [self.end_bits, KEY_BITS, PART_BITS]
    }

    /// Bits of a card with so many segments, without those that fill its last byte.
    pub fn bits_of(self, count: usize) -> usize {
        let (header, segment): (u32, u32) = (self.header().iter().sum(), self.segment().iter().sum());
        (LAYOUT_BITS + header) as usize + count * segment as usize
    }

    /// Bytes of a card with so many segments.
    pub fn length_of(self, count: usize) -> usize {
        self.bits_of(count).div_ceil(8)
    }
}

impl Segment {
    fn fits(&self, layout: Layout) -> bool {
        self.end <= layout.last_end && self.key < MISSING && self.confidence <= WHOLE
    }
}

impl Meaning {
    /// The empty analysis.
    pub fn empty() -> Self {
        let (key, segments) = (MISSING, vec![]);
        Self { key, dsp_key: key, alternate: key, coverage: 0, confidence: 0, segments }
    }

    /// What the bytes say, or the number of the first refusal that applies; rows are not asked for yet.
    pub fn read(bytes: &[u8]) -> Result<Self, u32> {
        if bytes.len() < SHORTEST {
            return Err(WRONG_LENGTH);
        }
        let mut row = row_of(bytes);
        let [number] = cut(&mut row, [LAYOUT_BITS]);
        let layout = Layout::numbered(number).ok_or(UNKNOWN_LAYOUT)?;
        let [key, dsp_key, alternate, coverage, confidence, count] = cut(&mut row, layout.header());
        if bytes.len() != layout.length_of(count as usize) {
            return Err(WRONG_LENGTH);
        }
        let segment = |_| {
            let [end, key, confidence] = cut(&mut row, layout.segment());
            Segment { end, key, confidence }
        };
        let segments = (0..count).map(segment).collect();
        let said = Self { key, dsp_key, alternate, coverage, confidence, segments };
        if !said.fits(layout) || row.any(|bit| bit) {
            return Err(RULE_BROKEN);
        }
        if said.layout() == Some(layout) { Ok(said) } else { Err(NEEDLESS_LAYOUT) }
    }

    /// Its numbers as a row of bits, in bytes, whether they keep the rules or not; each has to fit its bits.
    pub fn joined(&self, layout: Layout) -> Vec<u8> {
        let (mut row, count) = (vec![], self.segments.len() as u64);
        let Self { key, dsp_key, alternate, coverage, confidence, .. } = *self;
        join(&mut row, [LAYOUT_BITS], [layout.number]);
        join(&mut row, layout.header(), [key, dsp_key, alternate, coverage, confidence, count]);
        for Segment { end, key, confidence } in &self.segments {
            join(&mut row, layout.segment(), [*end, *key, *confidence]);
        }
        row.chunks(8).map(byte).collect()
    }

    /// The card, or none where no layout holds it.
    pub fn card(&self) -> Option<Vec<u8>> {
        self.layout().map(|layout| self.joined(layout))
    }

    /// The layout of its card.
    pub fn layout(&self) -> Option<Layout> {
        LAYOUTS.into_iter().find(|&layout| self.fits(layout))
    }

    /// Whether it keeps the card rules by this layout's limits.
    pub fn fits(&self, layout: Layout) -> bool {
        let segments_fit = self.segments.len() <= layout.most_segments
            && self.segments.iter().all(|segment| segment.fits(layout));
        segments_fit && self.ends_rise() && self.header_fits()
    }

    fn header_fits(&self) -> bool {
        let keys_in_range = [self.key, self.dsp_key, self.alternate].iter().all(|&key| key <= MISSING);
        let parts_in_range = self.coverage <= WHOLE && self.confidence <= WHOLE;
        let present = [self.key != MISSING, self.dsp_key != MISSING, !self.segments.is_empty()];
        let all_or_none = present == [true; 3] || present == [false; 3];
        let silence = self.key != MISSING || (self.alternate == MISSING && self.confidence == 0);
        let alone = self.alternate != MISSING || self.coverage == 0;
        let another = self.key == MISSING || self.alternate != self.key;
        keys_in_range && parts_in_range && all_or_none && silence && alone && another
    }

    fn ends_rise(&self) -> bool {
        let segments = &self.segments;
        let first_fits = segments.len() == 1 || segments.first().is_none_or(|first| first.end > 0);
        first_fits && segments.windows(2).all(|pair| pair[0].end < pair[1].end)
    }

    /// Where each segment starts: at the end before it, the first at 0.
    pub fn starts(&self) -> impl Iterator<Item = u64> {
        let ends = self.segments.iter().map(|segment| segment.end);
        std::iter::once(0).chain(ends).take(self.segments.len())
    }

    /// An analysis, packed; none where its lists are of unequal length or a start is not the end before it.
    pub fn of_analysis(told: &Told) -> Option<Self> {
        let count = told.ends.len();
        let equally_long = [told.starts.len(), told.keys.len(), told.confidences.len()] == [count; 3];
        let borders = std::iter::once(&0.0).chain(&told.ends);
        if !equally_long || !told.starts.iter().zip(borders).all(|(start, border)| start == border) {
            return None;
        }
        let segment = |at: usize| Segment {
            end: exact_milliseconds(told.ends[at]),
            key: told.keys[at].into(),
            confidence: exact_thousandths(told.confidences[at]),
        };
        Some(Self {
            key: told.key.into(),
            dsp_key: told.dsp_key.into(),
            alternate: told.alternate.into(),
            coverage: exact_thousandths(told.coverage),
            confidence: exact_thousandths(told.confidence),
            segments: (0..count).map(segment).collect(),
        })
    }

    /// A line for the key and one for each segment: start, end, key.
    fn listed(&self) -> String {
        let named = |key: u64| name(key as u32).expect("a card's segments have keys");
        if self.key == MISSING {
            return "no key\n".into();
        }
        let lines = self.starts().zip(&self.segments);
        let lines = lines.map(|(start, part)| format!("{start} {} {}\n", part.end, named(part.key)));
        format!("{}\n{}", named(self.key), lines.collect::<String>())
    }
}

/// What is printed of a card, or of bytes that are none.
pub fn listing(bytes: &[u8]) -> String {
    Meaning::read(bytes).map_or_else(|refusal| format!("refused {refusal}\n"), |said| said.listed())
}
