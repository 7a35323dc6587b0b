//! Key cards read, beside a reader written from the request: every answer, every row and every byte that is lent.
use crate::analyses::{Kind, Told, kinds};
use crate::card_breaches::{BREACHES, broken, good};
use crate::card_calls::{Read, Reading};
use crate::card_model::{LAYOUT_1, LAYOUT_2, LAYOUTS, Layout, MISSING, Meaning, Segment, WHOLE};
use crate::card_model::{NEEDLESS_LAYOUT, RULE_BROKEN};
use crate::card_random::compare_random;
use crate::cards::{self, OF_EVERY_COUNT, OF_FEW_SEGMENTS, of_every_count, of_few_segments};
use crate::groups::Groups;
use crate::{card_limits, card_orders, card_rounds};

/// Streams of the seed from here on, of the cards, the broken ones and those in a needless layout.
const STREAM: u64 = 200_000;
const BROKEN_STREAM: u64 = 250_000;
const NEEDLESS_STREAM: u64 = 220_000;

/// So many cards have each bit flipped, these of many segments in each layout among them.
const FLIPPED: usize = 2_000;
const FLIPPED_LONG: [usize; 9] = [20, 31, 40, 52, 63, 80, 101, 128, 300];

/// Of longer cards so many bits are flipped at either end.
const FLIPPED_AT_ENDS: usize = 100;

/// Most segments of the others.
const FEW: usize = 12;

/// Cards of many segments: the most of layout 1, and in layout 2 as many, one more and the most.
const LONG: [Kind; 4] = [(LAYOUT_1, 1_023), (LAYOUT_2, 1_023), (LAYOUT_2, 1_024), (LAYOUT_2, 4_095)];

/// So many cards for each broken rule in each layout.
const BROKEN: usize = 1_000;

/// Every number of segments that layout 1 holds so many times in layout 2.
const NEEDLESS: usize = 8;

/// Lent rows are longer than the card by so many.
const MORE: [usize; 4] = [1, 0, 3, 2];

/// Row o of the request's table, and row p, the empty analysis.
pub const ROW_O: [u8; 11] = [0x1a, 0xd7, 0x00, 0x03, 0xe8, 0x00, 0x81, 0x5f, 0x90, 0x55, 0xf4];
pub const ROW_P: [u8; 7] = [0x1c, 0x63, 0, 0, 0, 0, 0];

fn compare_again(groups: &mut Groups, name: &str, count: usize, nth: impl Fn(usize) -> Told + Sync) {
    let name = format!("cards read and written again, {name}");
    groups.shared_group(&name, count, nth, card_rounds::ours, card_rounds::theirs);
}

fn compare_readings(groups: &mut Groups, name: &str, count: usize, nth: impl Fn(usize) -> Reading + Sync) {
    groups.shared_group(&format!("cards read, {name}"), count, nth, Reading::ours, Reading::theirs);
}

fn compare_list(groups: &mut Groups, name: &str, readings: &[Reading]) {
    compare_readings(groups, name, readings.len(), |nth| readings[nth].clone());
}

/// A bit of a card, by its place in the row.
fn flip(bytes: &mut [u8], place: usize) {
    bytes[place / 8] ^= 0x80 >> (place % 8);
}

/// Cards of these kinds by their bytes, with their number of segments.
fn cards_of(seed: u64, kinds: impl IntoIterator<Item = Kind>) -> Vec<(usize, Vec<u8>)> {
    let card = |(kind, stream): (Kind, u64)| (kind.1, good(seed, stream, kind).joined(kind.0));
    kinds.into_iter().zip(STREAM..).map(card).collect()
}

/// Few segments in either layout, and many.
fn few_and_long() -> impl Iterator<Item = Kind> {
    kinds(FEW).into_iter().chain(LONG)
}

/// Each card with one bit flipped, of those that are chosen of so many.
fn compare_flips(groups: &mut Groups, name: &str, cards: &[(usize, Vec<u8>)], bits: fn(usize) -> Vec<usize>) {
    let of_card = |card: usize| bits(8 * cards[card].1.len()).into_iter().map(move |bit| (card, bit));
    let flips: Vec<(usize, usize)> = (0..cards.len()).flat_map(of_card).collect();
    compare_readings(groups, name, flips.len(), |nth| {
        let (card, bit) = flips[nth];
        let (count, mut bytes) = cards[card].clone();
        flip(&mut bytes, bit);
        Reading::new(bytes, count, MORE)
    });
}

fn compare_all_flips(groups: &mut Groups) {
    let seed = groups.seed;
    let long = || LAYOUTS.into_iter().flat_map(|layout| FLIPPED_LONG.map(|count| (layout, count)));
    let few = kinds(FEW).into_iter().cycle().take(FLIPPED - long().count());
    let cards = cards_of(seed, few.chain(long()));
    compare_flips(groups, "each bit of 2,000 flipped", &cards, |bits| (0..bits).collect());
    compare_flips(groups, "bits at the ends of long ones flipped", &cards_of(seed, LONG), |bits| {
        (0..FLIPPED_AT_ENDS).chain(bits - FLIPPED_AT_ENDS..bits).collect()
    });
}

/// A card cut or padded to this length.
fn of_length(card: &[u8], length: usize, padding: u8) -> Vec<u8> {
    card.iter().copied().chain(std::iter::repeat(padding)).take(length).collect()
}

/// Every length up to three bytes more than the card's, these with zeros and with ones behind it.
fn compare_lengths(groups: &mut Groups) {
    let cards = cards_of(groups.seed, few_and_long());
    let of_card = |card: usize| {
        let whole = cards[card].1.len();
        let padded = (whole + 1..=whole + 3).flat_map(|length| [(length, 0), (length, 0xff)]);
        (0..=whole)
            .map(|length| (length, 0))
            .chain(padded)
            .map(move |(length, padding)| (card, length, padding))
    };
    let lengths: Vec<(usize, usize, u8)> = (0..cards.len()).flat_map(of_card).collect();
    compare_readings(groups, "every length", lengths.len(), |nth| {
        let (card, length, padding) = lengths[nth];
        Reading::new(of_length(&cards[card].1, length, padding), cards[card].0, MORE)
    });
}

pub fn set_layout(bytes: &mut [u8], layout: u8) {
    if let Some(first) = bytes.first_mut() {
        *first = *first & 0xf | layout << 4;
    }
}

/// Every layout at lengths around the card's and around the shortest.
fn every_layout(seed: u64) -> Vec<Reading> {
    let layouts = |(count, card): (usize, Vec<u8>)| {
        let lengths = (0..9).chain(card.len() - 1..card.len() + 2);
        let lent = lengths.flat_map(|length| (0..16).map(move |layout| (length, layout)));
        let changed = lent.map(|(length, layout)| {
            let mut bytes = of_length(&card, length, 0);
            set_layout(&mut bytes, layout);
            Reading::new(bytes, count, MORE)
        });
        changed.collect::<Vec<_>>()
    };
    cards_of(seed, few_and_long()).into_iter().flat_map(layouts).collect()
}

/// Each list lent with none, one too few, just as many, one and two more, beside each length of the others.
fn every_room(seed: u64) -> Vec<Reading> {
    let rooms = |(count, card): (usize, Vec<u8>)| {
        let lent = [0, count - 1, count, count + 1, count + 2];
        let chosen = move |nth: usize| [nth % 5, nth / 5 % 5, nth / 25 % 5, nth / 125].map(|one| lent[one]);
        (0..5usize.pow(4)).map(move |nth| Reading { bytes: card.clone(), rows: chosen(nth) })
    };
    let few = LAYOUTS.into_iter().flat_map(|layout| [1, 2, 3, FEW].map(|count| (layout, count)));
    cards_of(seed, few.chain(LONG)).into_iter().flat_map(rooms).collect()
}

/// A meaning that layout 1 holds, in layout 2.
fn needless(seed: u64, nth: usize) -> Reading {
    let count = nth % (LAYOUT_1.most_segments + 1);
    let said = good(seed, NEEDLESS_STREAM + nth as u64, (LAYOUT_1, count));
    let reading = Reading::new(said.joined(LAYOUT_2), count, MORE);
    assert_eq!(reading.refusal(), Some(NEEDLESS_LAYOUT), "{said:?}");
    reading
}

/// Counts and last ends about the limits, in each layout whose bits hold them.
fn at_limits() -> Vec<Reading> {
    let meanings = card_limits::meanings();
    let in_layout = |layout: Layout| {
        let is_held = move |said: &&Meaning| {
            let last = said.segments.last().map_or(0, |last| last.end);
            said.segments.len() >> layout.count_bits == 0 && last >> layout.end_bits == 0
        };
        let held = meanings.iter().filter(is_held);
        held.map(move |said| Reading::new(said.joined(layout), said.segments.len(), [0; 4]))
    };
    LAYOUTS.into_iter().flat_map(in_layout).collect()
}

/// Each filler bit set, alone and with all others; one card of layout 1 in eight has none.
fn filled(seed: u64) -> Vec<Reading> {
    let filled = |((layout, count), stream): (Kind, u64)| {
        let card = good(seed, stream, (layout, count)).joined(layout);
        let (used, all) = (layout.bits_of(count), 8 * card.len());
        let sets = (used..all).map(|bit| bit..bit + 1).chain(std::iter::once(used..all));
        let set = sets.filter(|bits| !bits.is_empty()).map(|bits| {
            let mut bytes = card.clone();
            bits.for_each(|bit| flip(&mut bytes, bit));
            assert_eq!(Meaning::read(&bytes), Err(RULE_BROKEN));
            Reading::new(bytes, count, MORE)
        });
        set.collect::<Vec<_>>()
    };
    let most =
        LAYOUTS.map(|layout| [layout.most_segments - 1, layout.most_segments].map(|count| (layout, count)));
    kinds(FEW).into_iter().chain(most.into_iter().flatten()).zip(STREAM..).flat_map(filled).collect()
}

fn compare_rules(groups: &mut Groups) {
    let seed = groups.seed;
    for (breach, first) in BREACHES.iter().zip((BROKEN_STREAM..).step_by(BROKEN)) {
        compare_readings(groups, &format!("{} in either layout", breach.rule), 2 * BROKEN, |nth| {
            let layout = LAYOUTS[nth % 2];
            let (said, _) = broken(seed, first + nth as u64 / 2, layout, breach);
            Reading::new(said.joined(layout), said.segments.len(), MORE)
        });
    }
    compare_list(groups, "filler bits set", &filled(seed));
    let counted = NEEDLESS * (LAYOUT_1.most_segments + 1);
    compare_readings(groups, "layout 2 without need", counted, |nth| needless(seed, nth));
    compare_list(groups, "counts and last ends at their limits", &at_limits());
    compare_list(groups, "each refusal alone and with each later one", &card_orders::readings(seed));
}

/// Short segments in layout 1, ends that layout 1 does not hold in layout 2, and short segments there.
const SMALL: [(Layout, u64); 3] = [(LAYOUT_1, 1), (LAYOUT_2, LAYOUT_1.last_end + 1), (LAYOUT_2, 1)];

/// Every three keys that five bits hold, without segments and with one, and without thousandths and with some.
fn three_keys(nth: usize) -> Reading {
    let field = |place: u32| (nth >> (5 * place) & 31) as u64;
    let (segment, parts, (layout, end)) = (nth >> 15 & 1, (nth >> 16 & 3) as u64, SMALL[nth >> 18]);
    let said = Meaning {
        key: field(0),
        dsp_key: field(1),
        alternate: field(2),
        coverage: parts & 1,
        confidence: parts >> 1,
        segments: vec![Segment { end, key: 0, confidence: 0 }; segment],
    };
    Reading::new(said.joined(layout), segment, [0; 4])
}

/// Every confidence of a segment with every key, and every thousandth of either kind in the header.
fn every_part(nth: usize) -> Reading {
    let (part, key) = ((nth & 1_023) as u64, (nth >> 10 & 31) as u64);
    let (header, (layout, end)) = (nth >> 15 & 1 == 1, SMALL[nth >> 16]);
    let segment =
        Segment { end, key: if header { 3 } else { key }, confidence: if header { 5 } else { part } };
    let [coverage, confidence] = match (header, key % 2) {
        (false, _) => [0, 0],
        (true, 0) => [part, key],
        (true, _) => [key, part],
    };
    let said = Meaning { key: 1, dsp_key: 2, alternate: 3, coverage, confidence, segments: vec![segment] };
    Reading::new(said.joined(layout), 1, [0; 4])
}

/// All that a card of this layout can hold.
pub fn largest(layout: Layout) -> Meaning {
    let room = layout.last_end / layout.most_segments as u64;
    let end = |left: usize| layout.last_end - left as u64 * room;
    let segment = |left| Segment { end: end(left), key: left as u64 % MISSING, confidence: WHOLE };
    Meaning {
        key: 23,
        dsp_key: 22,
        alternate: 21,
        coverage: WHOLE,
        confidence: WHOLE,
        segments: (0..layout.most_segments).rev().map(segment).collect(),
    }
}

/// Cards by their bytes with what they say.
fn table() -> Vec<(Vec<u8>, Meaning)> {
    let part = Segment { end: 180_000, key: 21, confidence: 500 };
    let row_o = Meaning { key: 21, dsp_key: 21, confidence: 500, segments: vec![part], ..Meaning::empty() };
    let largest = LAYOUTS.map(|layout| (largest(layout).joined(layout), largest(layout)));
    [(ROW_O.to_vec(), row_o), (ROW_P.to_vec(), Meaning::empty())].into_iter().chain(largest).collect()
}

fn compare_table(groups: &mut Groups) {
    let table = table();
    let ours = |nth: usize| {
        let (bytes, said) = &table[nth];
        let read = Reading::new(bytes.clone(), said.segments.len(), [0; 4]).ours();
        let again = read.to_write(bytes.len()).ours();
        (read, again)
    };
    let wanted = |nth: usize| {
        let (bytes, said) = &table[nth];
        (Read::wanted(said, bytes.clone()), cards::Left::wanted(bytes.len(), Some(bytes.clone())))
    };
    groups.group("cards read, rows o and p and the largest", 0..table.len(), ours, wanted);
}

pub fn compare(groups: &mut Groups) {
    let seed = groups.seed;
    compare_table(groups);
    compare_again(groups, "0 to 4,095 segments", OF_EVERY_COUNT, of_every_count(seed));
    compare_again(groups, "0 to 12 segments", OF_FEW_SEGMENTS, of_few_segments(seed));
    compare_all_flips(groups);
    compare_lengths(groups);
    compare_list(groups, "every layout", &every_layout(seed));
    compare_list(groups, "every room", &every_room(seed));
    compare_rules(groups);
    compare_readings(groups, "every three keys", SMALL.len() << 18, three_keys);
    compare_readings(groups, "every part", SMALL.len() << 16, every_part);
    compare_random(groups);
}
