//! Key cards, as decks read them.
use crate::calls::{
    CardFields, LONGEST_CARD, MOST_CARD_SEGMENTS, NO_KEY, PLACE_BYTES, PackedFields, UNWRITABLE, Written,
    read_card, write_card, write_packed_card,
};
use crate::found::Analysis;
use crate::keys::Key;
use crate::notation::Notation;
use crate::refusal::Refusal;
use std::error::Error;
use std::fmt;

/// Why a card was not written.
#[non_exhaustive]
#[derive(Debug, Clone, Copy, PartialEq, Eq)]
pub enum CardError {
    /// The fields break a card rule: too many segments, or numbers that no card holds.
    RuleBroken,
    /// A number that this crate does not know.
    #[non_exhaustive]
    Unknown {
        /// The library's number.
        refusal: u32,
    },
}

impl fmt::Display for CardError {
    fn fmt(&self, out: &mut fmt::Formatter<'_>) -> fmt::Result {
        match self {
            Self::RuleBroken => write!(
                out,
                "no card holds the analysis, such as one of more than {MOST_CARD_SEGMENTS} segments \
                 (refusal {UNWRITABLE})"
            ),
            Self::Unknown { refusal } => {
                write!(out, "the card was refused with the unknown number {refusal}")
            }
        }
    }
}

impl Error for CardError {}

/// The bytes of a card, by the call that writes them.
pub fn written(write: impl FnOnce(&mut [u8]) -> Written) -> Result<Vec<u8>, CardError> {
    let mut bytes = vec![0; LONGEST_CARD];
    match write(&mut bytes) {
        Written { refusal: 0, length } => Ok(bytes[..length].to_vec()),
        Written { refusal: UNWRITABLE, .. } => Err(CardError::RuleBroken),
        Written { refusal, .. } => Err(CardError::Unknown { refusal }),
    }
}

/// The card with these fields.
pub fn card(fields: &CardFields<'_>) -> Result<Vec<u8>, CardError> {
    written(|bytes| write_card(fields, bytes))
}

/// The layout that bytes name, in their first four bits.
pub fn layout_of(bytes: &[u8]) -> u8 {
    bytes.first().map_or(0, |first| first >> 4)
}

/// The card at the front of a set's place, as long as layout and segment count say; all of the place where they say
/// nothing that fits.
pub fn card_in(place: &[u8; PLACE_BYTES]) -> &[u8] {
    let front = place.first_chunk().map_or(0, |front| u64::from_be_bytes(*front));
    // the count stands behind 39 bits, in 10 of layout 1 and in 12 of layout 2
    let bits = match layout_of(place) {
        1 => 49 + 39 * (front << 39 >> 54),
        2 => 51 + 42 * (front << 39 >> 52),
        _ => return place,
    };
    place.get(..bits.div_ceil(8) as usize).unwrap_or(place)
}

/// A key's number, or that of a missing one.
pub fn number(key: Option<Key>) -> u32 {
    key.map_or(NO_KEY, |key| key.number().into())
}

/// One thing of each segment.
pub fn column<S, A>(segments: &[S], of: impl Fn(&S) -> A) -> Vec<A> {
    segments.iter().map(of).collect()
}

/// A part of the track in one key, as a card has it.
#[non_exhaustive]
#[derive(Debug, Clone, Copy, PartialEq, Eq, Hash)]
pub struct CardSegment {
    /// Where it starts, in milliseconds.
    pub start_ms: u32,
    /// Where it ends, in milliseconds.
    pub end_ms: u32,
    /// Its key.
    pub key: Key,
    /// The confidence in it, in thousandths: 0 to 1000.
    pub confidence: u16,
}

/// Another key that much of the track is in, as a card has it.
#[non_exhaustive]
#[derive(Debug, Clone, Copy, PartialEq, Eq, Hash)]
pub struct CardAlternate {
    /// The key.
    pub key: Key,
    /// The part of the track that its segments take, in thousandths: 0 to 1000.
    pub coverage: u16,
}

/// What a key card says, in thousandths and milliseconds. It is only made of a card that keeps all card rules, so it
/// can always be written again, and the bytes are then those that it was read from.
///
/// As text it has a line for the key, or `no key`, and one for each segment.
///
/// ```
/// use ulyptesh::{Card, Refusal};
/// # fn main() -> Result<(), Refusal> {
/// let bytes = [0x1A, 0xD7, 0x00, 0x03, 0xE8, 0x00, 0x81, 0x5F, 0x90, 0x55, 0xF4];
/// let card = Card::read(&bytes)?;
/// assert_eq!(card.to_string(), "A minor\n0 180000 A minor");
/// assert_eq!(card.key_at(90_000).map(|key| key.camelot()), Some("8A".into()));
/// assert_eq!(card.key_at(180_001), None);
/// assert_eq!((card.layout(), card.to_bytes()), (1, bytes.to_vec()));
/// assert_eq!(Card::read(&bytes[..10]).map_err(|why| why.number()), Err(20));
/// # Ok(())
/// # }
/// ```
#[derive(Debug, Clone, PartialEq, Eq, Hash)]
pub struct Card {
    layout: u8,
    key: Option<Key>,
    dsp_key: Option<Key>,
    alternate: Option<CardAlternate>,
    confidence: u16,
    segments: Vec<CardSegment>,
}

impl Card {
    /// Reads a card: these bytes, from the first to the last. Refused are a wrong length (20), an unknown layout (21), a
    /// broken card rule or a filler bit set (22), and layout 2 where layout 1 would have held the card (23). It lends
    /// rows for the most segments, so 24 never comes.
    pub fn read(bytes: &[u8]) -> Result<Self, Refusal> {
        let (mut starts, mut ends) = (vec![0; MOST_CARD_SEGMENTS], vec![0; MOST_CARD_SEGMENTS]);
        let (mut keys, mut confidences) = (vec![0; MOST_CARD_SEGMENTS], vec![0; MOST_CARD_SEGMENTS]);
        let told = read_card(bytes, &mut starts, &mut ends, &mut keys, &mut confidences);
        if told.refusal != 0 {
            return Err(Refusal::of_card(told.refusal, bytes));
        }
        let key = |number| Key::try_from(number).ok();
        let segment = |at: usize| CardSegment {
            start_ms: starts[at],
            end_ms: ends[at],
            key: Key::ALL[usize::from(keys[at])],
            confidence: confidences[at],
        };
        let alternate = |key| CardAlternate { key, coverage: told.coverage as u16 };
        Ok(Self {
            layout: layout_of(bytes),
            key: key(told.key),
            dsp_key: key(told.dsp_key),
            alternate: key(told.alternate).map(alternate),
            confidence: told.confidence as u16,
            segments: (0..told.segments as usize).map(segment).collect(),
        })
    }

    /// The card written again: the bytes that it was read from.
    pub fn to_bytes(&self) -> Vec<u8> {
        let each = &self.segments;
        let fields = PackedFields {
            key: number(self.key),
            dsp_key: number(self.dsp_key),
            alternate: number(self.alternate.map(|alternate| alternate.key)),
            coverage: self.alternate.map_or(0, |alternate| alternate.coverage.into()),
            confidence: self.confidence.into(),
            starts: &column(each, |segment| segment.start_ms),
            ends: &column(each, |segment| segment.end_ms),
            keys: &column(each, |segment| segment.key.number()),
            confidences: &column(each, |segment| segment.confidence),
        };
        written(|bytes| write_packed_card(&fields, bytes)).expect("what was read breaks no card rule")
    }

    /// The layout of its bytes: 1 where that holds it, which is up to 1,023 segments and 14,400,000 ms, else 2. A deck
    /// that knows layout 1 alone refuses the other with 21.
    pub fn layout(&self) -> u8 {
        self.layout
    }

    /// The reported key; none on an empty card.
    pub fn key(&self) -> Option<Key> {
        self.key
    }

    /// The key by profiles alone, before any reranking; there exactly where the key is.
    pub fn dsp_key(&self) -> Option<Key> {
        self.dsp_key
    }

    /// Another key that much of the track is in.
    pub fn alternate(&self) -> Option<CardAlternate> {
        self.alternate
    }

    /// The confidence in the key, in thousandths: 0 to 1000, and 0 without a key.
    pub fn confidence(&self) -> u16 {
        self.confidence
    }

    /// In order and without gaps, from 0 to [`Card::duration_ms`]; none without a key.
    pub fn segments(&self) -> &[CardSegment] {
        &self.segments
    }

    /// Where the last segment ends, in milliseconds; 0 without one. On the card of an analysis that is the duration,
    /// rounded down: it does not lie after the audio. On a card of a version before 0.2.0 it may, by up to half a
    /// millisecond.
    pub fn duration_ms(&self) -> u32 {
        self.segments.last().map_or(0, |last| last.end_ms)
    }

    /// The key that sounds at a mix point, in milliseconds; at the very end the last segment's, none outside the track.
    /// A track's very end is [`Card::duration_ms`], which may be a millisecond less than its seconds say.
    pub fn key_at(&self, ms: u32) -> Option<Key> {
        let around = self.segments.partition_point(|segment| segment.end_ms <= ms);
        let at_the_end = || self.segments.last().filter(|last| last.end_ms == ms);
        self.segments.get(around).or_else(at_the_end).map(|segment| segment.key)
    }

    /// The card as text, with keys in this notation: a line for the key, or `no key`, and one for each segment.
    pub fn listing(&self, notation: Notation) -> String {
        let named = |key: Key| key.in_notation(notation);
        let key = self.key.map_or("no key".into(), named);
        let segment = |told: &CardSegment| format!("{} {} {}", told.start_ms, told.end_ms, named(told.key));
        [vec![key], column(&self.segments, segment)].concat().join("\n")
    }
}

impl fmt::Display for Card {
    fn fmt(&self, out: &mut fmt::Formatter<'_>) -> fmt::Result {
        out.write_str(&self.listing(Notation::Sharps))
    }
}

/// What a deck reads on the card of an analysis: times in milliseconds and all parts in thousandths, rounded down.
impl TryFrom<&Analysis> for Card {
    type Error = CardError;

    fn try_from(told: &Analysis) -> Result<Self, CardError> {
        Ok(Self::read(&told.card()?).expect("a card that was written can be read"))
    }
}

#[cfg(test)]
mod tests {
    use super::*;
    use crate::calls::SHORTEST_CARD;
    use crate::made::{Told, all_told, analysis, card_of_count, card_up_to, key_by_counting};

    /// Rows o and p of the request: a lone segment of three minutes in A minor, and the empty analysis.
    const ROW_O: [u8; 11] = [0x1A, 0xD7, 0x00, 0x03, 0xE8, 0x00, 0x81, 0x5F, 0x90, 0x55, 0xF4];
    const ROW_P: [u8; SHORTEST_CARD] = [0x1C, 0x63, 0x00, 0x00, 0x00, 0x00, 0x00];

    /// The product is exact in f64.
    fn thousandths(part: f32) -> u16 {
        (f64::from(part) * 1_000.0).floor() as u16
    }

    /// Rounded down; where the product was rounded up to a whole number, what `mul_add` leaves of it is below 0.
    fn milliseconds(seconds: &[f64]) -> Vec<u32> {
        column(seconds, |&seconds| {
            let whole = (seconds * 1_000.0).floor();
            whole as u32 - u32::from(seconds.mul_add(1_000.0, -whole) < 0.0)
        })
    }

    fn card_of(told: &Told) -> Card {
        Card::try_from(&analysis(told)).expect("no rule is broken")
    }

    /// Layout, bytes, segments and end of a card that is read, and written again as it was.
    fn read_back(bytes: &[u8]) -> (u8, usize, usize, u32) {
        let card = Card::read(bytes).expect("a card that was written");
        assert_eq!(card.to_bytes(), bytes);
        (card.layout(), bytes.len(), card.segments().len(), card.duration_ms())
    }

    /// The same bytes but for one bit.
    fn with_bit(mut bytes: Vec<u8>, at: usize) -> Vec<u8> {
        bytes[at / 8] ^= 0x80 >> (at % 8);
        bytes
    }

    #[test]
    fn rows_o_and_p_are_read() {
        let (one, none) = (Card::read(&ROW_O).expect("row o"), Card::read(&ROW_P).expect("row p"));
        let key = Key::ALL[21];
        let whole = CardSegment { start_ms: 0, end_ms: 180_000, key, confidence: 500 };
        assert_eq!((one.key(), one.dsp_key(), one.alternate()), (Some(key), Some(key), None));
        assert_eq!((one.confidence(), one.segments()), (500, &[whole][..]));
        assert_eq!((none.key(), none.dsp_key(), none.alternate()), (None, None, None));
        assert_eq!((none.confidence(), none.segments(), none.duration_ms()), (0, &[][..], 0));
    }

    #[test]
    fn rows_o_and_p_are_listed() {
        let listed = |bytes: &[u8], notation| Card::read(bytes).expect("a card").listing(notation);
        assert_eq!(listed(&ROW_O, Notation::Sharps), "A minor\n0 180000 A minor");
        assert_eq!(listed(&ROW_O, Notation::Camelot), "8A\n0 180000 8A");
        assert_eq!(listed(&ROW_P, Notation::Camelot), "no key");
    }

    #[test]
    fn a_card_says_what_the_analysis_did() {
        for told in all_told() {
            let card = card_of(&told);
            assert_eq!([number(card.key()), number(card.dsp_key())], [told.key, told.dsp_key]);
            assert_eq!(number(card.alternate().map(|other| other.key)), told.alternate);
            assert_eq!(card.alternate().map_or(0, |other| other.coverage), thousandths(told.coverage));
            assert_eq!(card.confidence(), thousandths(told.confidence));
            let each = card.segments();
            assert_eq!(column(each, |segment| segment.start_ms), milliseconds(&told.starts));
            assert_eq!(column(each, |segment| segment.end_ms), milliseconds(&told.ends));
            assert_eq!(column(each, |segment| segment.key.number()), told.keys);
            assert_eq!(
                column(each, |segment| segment.confidence),
                column(&told.confidences, |&x| thousandths(x))
            );
        }
    }

    #[test]
    fn a_card_written_again_has_the_same_bytes() {
        for told in all_told() {
            assert_eq!(Ok(card_of(&told).to_bytes()), analysis(&told).card());
        }
    }

    #[test]
    fn a_late_end_takes_layout_2() {
        for (end, layout, length) in [
            (14_399_999, 1, 11),
            (14_400_000, 1, 11),
            (14_400_001, 2, 12),
            (1 << 24, 2, 12),
            (86_400_000, 2, 12),
        ] {
            let bytes = card_up_to(&[end]).expect("a card");
            assert_eq!(read_back(&bytes), (layout, length, 1, end));
        }
        assert_eq!(card_up_to(&[86_400_001]), Err(CardError::RuleBroken));
        let both = card_up_to(&[14_400_000, 14_400_001]).expect("a card");
        assert_eq!(read_back(&both), (2, 17, 2, 14_400_001));
    }

    #[test]
    fn many_segments_take_layout_2() {
        for (count, layout, length) in [(0, 1, 7), (1_023, 1, 4_994), (1_024, 2, 5_383), (4_095, 2, 21_506)] {
            let bytes = card_of_count(count).expect("a card");
            assert_eq!(read_back(&bytes), (layout, length, count as usize, count));
        }
        assert_eq!(card_of_count(4_096), Err(CardError::RuleBroken));
    }

    #[test]
    fn layout_2_is_refused_where_layout_1_would_do() {
        // the last bit of the end, behind 51 bits of header
        let (late, last_bit) = (card_up_to(&[14_400_001]).expect("a card"), 51 + 26);
        let needless = with_bit(late, last_bit);
        let empty = [&[0x2C], &ROW_P[1..]].concat();
        for bytes in [&needless, &empty] {
            let words = "the card is in layout 2, and layout 1 would have held it (refusal 23)";
            assert_eq!(Card::read(bytes), Err(Refusal::CardNeedlessLayout));
            assert_eq!(Refusal::CardNeedlessLayout.to_string(), words);
            let (last, cut) = (8 * bytes.len() - 1, bytes.len() - 1);
            assert_eq!(Card::read(&with_bit(bytes.clone(), last)), Err(Refusal::CardBroken));
            assert_eq!(Card::read(&bytes[..cut]).map_err(|why| why.number()), Err(20));
        }
    }

    #[test]
    fn mix_points_have_the_key_of_their_segment() {
        for told in all_told() {
            let (card, ends) = (card_of(&told), milliseconds(&told.ends));
            assert_eq!(card.duration_ms(), ends.last().copied().unwrap_or_default());
            let borders = ends.iter().flat_map(|&end| [end - 1, end, end + 1, end / 2]);
            for ms in borders.chain([0, u32::MAX]) {
                let key = card.key_at(ms).map(Key::number);
                assert_eq!(key, key_by_counting(&ends, &told.keys, ms), "{ms} of {card}");
            }
        }
    }

    #[test]
    fn cards_are_refused_by_number() {
        let refused = |bytes: &[u8]| Card::read(bytes).expect_err("no card").to_string();
        let longer = [&ROW_O[..], &[0; LONGEST_CARD]].concat();
        let (alternate, filler) = (with_bit(ROW_O.to_vec(), 18), with_bit(ROW_P.to_vec(), 55));
        let cases: [(&[u8], &str); 8] = [
            (&[], "a card has at least 7 bytes, and there are 0 (refusal 20)"),
            (&[0x30; 6], "a card has at least 7 bytes, and there are 6 (refusal 20)"),
            (&ROW_O[..10], "10 bytes are not as many as the card's segment count gives (refusal 20)"),
            (&longer[..12], "12 bytes are not as many as the card's segment count gives (refusal 20)"),
            (&longer, "a card has at most 21506 bytes, and there are more (refusal 20)"),
            (&[0x30; SHORTEST_CARD], "the card's layout, 3, is not known (refusal 21)"),
            (&alternate, "the card breaks a card rule, or a bit behind its last field is set (refusal 22)"),
            (&filler, "the card breaks a card rule, or a bit behind its last field is set (refusal 22)"),
        ];
        for (bytes, words) in cases {
            assert_eq!(refused(bytes), words);
        }
    }
}
