//! Cards for sets: such as fit a place, up to the longest that do, such as are too long, and such as are refused.
use crate::analyses::{Kind, kinds};
use crate::card_breaches::{BREACHES, broken, good};
use crate::card_model::{LAYOUT_1, LAYOUT_2, LAYOUTS, Layout, MISSING, Meaning, Segment, WHOLE};
use crate::card_reads::set_layout;
use crate::set_model::PLACE;
use bench::inputs::dice::Dice;

/// Most segments where they are few, and of the shortest cards.
const FEW: usize = 12;
const FEWEST: usize = 2;

/// Cards that are too long have up to so many segments more than fit.
const BEYOND: usize = 40;

/// One card in so many is of the odd sort.
const ODD: usize = 8;

/// As many segments as fit a place.
pub fn most_in_place(layout: Layout) -> usize {
    (0..).take_while(|&count| layout.length_of(count) <= PLACE).last().expect("the header fits")
}

/// The kinds of the longest cards that fit a place.
pub fn longest() -> [Kind; 2] {
    LAYOUTS.map(|layout| (layout, most_in_place(layout)))
}

/// Segments one behind the other, the key of the first of them.
fn said(segments: Vec<Segment>) -> Meaning {
    let key = segments.first().map_or(MISSING, |first| first.key);
    Meaning { key, dsp_key: key, segments, ..Meaning::empty() }
}

fn card(said: &Meaning) -> Vec<u8> {
    said.card().expect("a layout holds it")
}

/// A card of this kind.
pub fn of_kind(seed: u64, stream: u64, kind: Kind) -> Vec<u8> {
    card(&good(seed, stream, kind))
}

/// The card of the empty analysis.
pub fn keyless() -> Vec<u8> {
    card(&Meaning::empty())
}

/// One segment that ends at this millisecond.
pub fn lone(end: u64, key: u64) -> Vec<u8> {
    card(&said(vec![Segment { end, key, confidence: 500 }]))
}

/// One segment of a whole day.
pub fn of_a_day(key: u64) -> Vec<u8> {
    lone(LAYOUT_2.last_end, key)
}

/// A brief card for each number, all different.
pub fn numbered(number: usize) -> Vec<u8> {
    lone(1 + number as u64, number as u64 % MISSING)
}

/// As long a card as fits a place for each number, all different.
pub fn longest_numbered(seed: u64, stream: u64, number: usize) -> Vec<u8> {
    let mut said = good(seed, stream, longest()[number % 2]);
    said.confidence = (number / 2) as u64 % (WHOLE + 1);
    card(&said)
}

/// The same bytes with another count in the header.
pub fn with_count(card: &[u8], layout: Layout, count: usize) -> Vec<u8> {
    let mut bytes = card.to_vec();
    for place in 0..layout.count_bits as usize {
        let bit = layout.bits_of(0) - 1 - place;
        let mask = 0x80 >> (bit % 8);
        bytes[bit / 8] = if count >> place & 1 == 1 { bytes[bit / 8] | mask } else { bytes[bit / 8] & !mask };
    }
    bytes
}

/// The same card but for its confidence; a card without a key says nothing else, so it becomes one with a key.
pub fn nearly(bytes: &[u8]) -> Vec<u8> {
    let mut said = Meaning::read(bytes).expect("a card that reads");
    if said.key == MISSING {
        return lone(0, 0);
    }
    said.confidence = (said.confidence + 1) % (WHOLE + 1);
    card(&said)
}

/// What cards are drawn from.
#[derive(Debug, Clone, Copy, PartialEq, Eq)]
pub enum Sort {
    Any,
    Brief,
    Longest,
}

/// A card that fits a place.
pub fn fitting(seed: u64, stream: u64, sort: Sort, dice: &mut Dice) -> Vec<u8> {
    let layout = dice.one_of(&LAYOUTS);
    let kind = match sort {
        Sort::Longest => dice.one_of(&longest()),
        Sort::Any if dice.one_in(ODD) => dice.one_of(&longest()),
        Sort::Any if dice.one_in(ODD) => (layout, 1 + dice.below(most_in_place(layout))),
        Sort::Any => dice.one_of(&kinds(FEW)),
        Sort::Brief => dice.one_of(&kinds(FEWEST)),
    };
    match (kind, dice.below(ODD)) {
        ((LAYOUT_1, 1), 0) => lone(0, dice.key().into()),
        _ => of_kind(seed, stream, kind),
    }
}

/// A card that reads and is too long for a place.
pub fn too_long(seed: u64, stream: u64, dice: &mut Dice) -> Vec<u8> {
    let layout = dice.one_of(&LAYOUTS);
    let more = if dice.one_in(2) { 1 } else { 1 + dice.below(BEYOND) };
    of_kind(seed, stream, (layout, most_in_place(layout) + more))
}

/// Bytes of another length than the count gives: under 7, one fewer, one more, or a whole place.
fn of_wrong_length(mut card: Vec<u8>, dice: &mut Dice) -> Vec<u8> {
    let length = [dice.below(7), card.len() - 1, card.len() + 1, PLACE];
    card.resize(dice.one_of(&length), 0);
    card
}

fn of_no_layout(mut card: Vec<u8>, dice: &mut Dice) -> Vec<u8> {
    set_layout(&mut card, dice.one_of(&[0, 3, 4, 5, 6, 7, 8, 9, 10, 11, 12, 13, 14, 15]));
    card
}

fn with_rule_broken(seed: u64, stream: u64, dice: &mut Dice) -> Vec<u8> {
    let (layout, breach) = (dice.one_of(&LAYOUTS), &BREACHES[dice.below(BREACHES.len())]);
    broken(seed, stream, layout, breach).0.joined(layout)
}

fn of_needless_layout(seed: u64, stream: u64, dice: &mut Dice) -> Vec<u8> {
    good(seed, stream, (LAYOUT_1, dice.below(FEW))).joined(LAYOUT_2)
}

/// A card with each of the refusals that a card can have, in their order.
pub fn refused(seed: u64, stream: u64, dice: &mut Dice) -> [Vec<u8>; 5] {
    let fitting = fitting(seed, stream, Sort::Any, dice);
    [
        of_wrong_length(fitting.clone(), dice),
        of_no_layout(fitting, dice),
        with_rule_broken(seed, stream, dice),
        of_needless_layout(seed, stream, dice),
        too_long(seed, stream, dice),
    ]
}
