//! Sets of cards in plain Rust, to stand beside the library: as its calls do, each of these reads every card of the lent
//! set and works the totals out afresh, before it changes anything.
use ulyptesh::calls::{
    CARD_BROKEN, CARD_NEEDLESS_LAYOUT, CARD_TOO_LONG, CARD_UNKNOWN_LAYOUT, CARD_WRONG_LENGTH, NO_KEY,
    NO_SUCH_CARD, PLACE_BYTES, SET_BYTES, SET_FULL, SET_NOT_TRUE, SHORTEST_CARD, SUMMARY_CARDS,
    SUMMARY_NUMBERS, SUMMARY_WITHOUT_KEY, SetChange,
};

/// The number of a key that is missing, and the most thousandths.
const MISSING: u64 = NO_KEY as u64;
const WHOLE: u64 = 1_000;

/// The bits of a layout's number, of a key and of thousandths.
const LAYOUT_BITS: usize = 4;
const KEY_BITS: usize = 5;
const PART_BITS: usize = 10;

const FREE: [u8; PLACE_BYTES] = [0; PLACE_BYTES];

type Summary = [u64; SUMMARY_NUMBERS];

/// The bits of a segment count and of an end, and the limits of both.
#[derive(Clone, Copy, PartialEq)]
struct Layout {
    count_bits: usize,
    end_bits: usize,
    most_segments: u64,
    last_end: u64,
}

const LAYOUT_1: Layout = Layout { count_bits: 10, end_bits: 24, most_segments: 1_023, last_end: 14_400_000 };
const LAYOUT_2: Layout = Layout { count_bits: 12, end_bits: 27, most_segments: 4_095, last_end: 86_400_000 };

/// Bits taken from the front, most significant first.
struct Bits<'a> {
    bytes: &'a [u8],
    at: usize,
}

impl Bits<'_> {
    fn take(&mut self, width: usize) -> u64 {
        let (first, end) = (self.at / 8, self.at + width);
        let last = end.div_ceil(8);
        let number = self.bytes[first..last].iter().fold(0, |number, &byte| number << 8 | u64::from(byte));
        self.at = end;
        number >> (8 * last - end) & ((1 << width) - 1)
    }
}

fn layout_of(bytes: &[u8]) -> Result<Layout, u32> {
    match bytes[0] >> 4 {
        1 => Ok(LAYOUT_1),
        2 => Ok(LAYOUT_2),
        _ => Err(CARD_UNKNOWN_LAYOUT),
    }
}

/// Key, DSP key, alternate, coverage, confidence and count.
fn header<'a>(bytes: &'a [u8], layout: Layout) -> ([u64; 6], Bits<'a>) {
    let mut bits = Bits { bytes, at: LAYOUT_BITS };
    let widths = [KEY_BITS, KEY_BITS, KEY_BITS, PART_BITS, PART_BITS, layout.count_bits];
    (widths.map(|width| bits.take(width)), bits)
}

/// Bytes of the card whose header stands at the front of at least as many as the shortest has.
fn length_of(bytes: &[u8], layout: Layout) -> usize {
    let ([.., count], bits) = header(bytes, layout);
    (bits.at + count as usize * (layout.end_bits + KEY_BITS + PART_BITS)).div_ceil(8)
}

fn header_fits([key, dsp_key, alternate, coverage, confidence, count]: [u64; 6]) -> bool {
    let (has_key, has_alternate) = (key != MISSING, alternate != MISSING);
    key.max(dsp_key).max(alternate) <= MISSING
        && coverage.max(confidence) <= WHOLE
        && has_key == (dsp_key != MISSING)
        && has_key == (count > 0)
        && (has_key || (!has_alternate && confidence == 0))
        && (has_alternate || coverage == 0)
        && (!has_key || alternate != key)
}

/// The milliseconds of so many segments go to their keys; the last end, or why they are not a card's.
fn add_segments(bits: &mut Bits<'_>, layout: Layout, count: u64, totals: &mut Summary) -> Result<u64, u32> {
    let mut before = 0;
    for _ in 0..count {
        let (end, key, confidence) = (bits.take(layout.end_bits), bits.take(KEY_BITS), bits.take(PART_BITS));
        let rises = end > before || count == 1;
        if !rises || end > layout.last_end || key >= MISSING || confidence > WHOLE {
            return Err(CARD_BROKEN);
        }
        totals[key as usize] += end - before;
        before = end;
    }
    Ok(before)
}

/// What a card adds to a summary, or why it doesn't read.
fn read(bytes: &[u8]) -> Result<Summary, u32> {
    if bytes.len() < SHORTEST_CARD {
        return Err(CARD_WRONG_LENGTH);
    }
    let layout = layout_of(bytes)?;
    if bytes.len() != length_of(bytes, layout) {
        return Err(CARD_WRONG_LENGTH);
    }
    let (header, mut bits) = header(bytes, layout);
    let ([key, .., count], mut totals) = (header, [0; SUMMARY_NUMBERS]);
    let last = add_segments(&mut bits, layout, count, &mut totals)?;
    let filler = 8 * bytes.len() - bits.at;
    if !header_fits(header) || count > layout.most_segments || bits.take(filler) != 0 {
        return Err(CARD_BROKEN);
    }
    if layout == LAYOUT_2 && count <= LAYOUT_1.most_segments && last <= LAYOUT_1.last_end {
        return Err(CARD_NEEDLESS_LAYOUT);
    }
    totals[SUMMARY_CARDS] = 1;
    totals[SUMMARY_WITHOUT_KEY] = u64::from(key == MISSING);
    Ok(totals)
}

/// What a place adds to a summary; none where it is spoilt.
fn held_by(place: &[u8]) -> Option<Summary> {
    if *place == FREE {
        return Some([0; SUMMARY_NUMBERS]);
    }
    let layout = layout_of(place).ok()?;
    let (card, behind) = place.split_at_checked(length_of(place, layout))?;
    if *behind == FREE[card.len()..] { read(card).ok() } else { None }
}

/// The totals of a set, worked out afresh; none where a place is spoilt.
fn totals(set: &[u8]) -> Option<Summary> {
    set.chunks(PLACE_BYTES).try_fold([0; SUMMARY_NUMBERS], |mut totals, place| {
        let held = held_by(place)?;
        totals.iter_mut().zip(held).for_each(|(total, number)| *total += number);
        Some(totals)
    })
}

/// The numbers of a card that may go in or out, or why it may not.
fn checked(set: &[u8], summary: &[u64], card: &[u8]) -> Result<Summary, u32> {
    if set.len() != SET_BYTES || totals(set).is_none_or(|totals| totals != *summary) {
        return Err(SET_NOT_TRUE);
    }
    let numbers = read(card)?;
    if card.len() > PLACE_BYTES { Err(CARD_TOO_LONG) } else { Ok(numbers) }
}

fn added(set: &mut [u8], summary: &mut [u64], card: &[u8]) -> Result<usize, u32> {
    let numbers = checked(set, summary, card)?;
    let place = set.chunks(PLACE_BYTES).position(|place| *place == FREE).ok_or(SET_FULL)?;
    set[place * PLACE_BYTES..][..card.len()].copy_from_slice(card);
    summary.iter_mut().zip(numbers).for_each(|(total, number)| *total += number);
    Ok(place)
}

fn removed(set: &mut [u8], summary: &mut [u64], card: &[u8]) -> Result<usize, u32> {
    let numbers = checked(set, summary, card)?;
    let is_equal = |place: &[u8]| place.starts_with(card);
    let place = set.chunks(PLACE_BYTES).position(is_equal).ok_or(NO_SUCH_CARD)?;
    set[place * PLACE_BYTES..][..card.len()].fill(0);
    summary.iter_mut().zip(numbers).for_each(|(total, number)| *total -= number);
    Ok(place)
}

fn answer(changed: Result<usize, u32>) -> SetChange {
    let refused = |refusal| SetChange { refusal, place: 0 };
    changed.map_or_else(refused, |place| SetChange { refusal: 0, place: place as u32 })
}

pub fn add_card(set: &mut [u8], summary: &mut [u64], card: &[u8]) -> SetChange {
    answer(added(set, summary, card))
}

pub fn remove_card(set: &mut [u8], summary: &mut [u64], card: &[u8]) -> SetChange {
    answer(removed(set, summary, card))
}
