//! Places of a lent set that were spoilt: bits of a card turned round, cards cut, bytes set behind them and in free
//! places, counts that claim another length, cards across a border, any bytes.
use crate::card_model::{LAYOUT_1, LAYOUT_2, LAYOUTS, Meaning};
use crate::groups::Groups;
use crate::set_calls::Asked;
use crate::set_cards::{keyless, lone, longest, most_in_place, of_kind, with_count};
use crate::set_model::{CALLS, PLACE, PLACES, Set, summary_of};
use bench::inputs::dice::Dice;

/// Streams of the seed from here on, of the cards and of what befalls them.
const STREAM: u64 = 430_000;
const SPOILT_STREAM: u64 = 440_000;

/// Free places of the set: between cards, in the middle, and before the last cards.
const FREE: [usize; 3] = [2, 512, 1_021];

/// So many places of any bytes.
const ANY: usize = 2_000;

/// A set with cards of each form, in the first and the last place too, and free places between them.
pub fn few_cards(seed: u64) -> Set {
    let [longest_1, longest_2] = longest().map(|kind| of_kind(seed, STREAM, kind));
    let [typical, several] = [12, 3].map(|count| of_kind(seed, STREAM + 1, (LAYOUT_1, count)));
    let long_alone = of_kind(seed, STREAM + 2, (LAYOUT_2, 1));
    Set::of([
        (0, keyless()),
        (1, lone(0, 7)),
        (3, typical),
        (4, long_alone),
        (5, longest_1),
        (1_022, longest_2),
        (1_023, several),
    ])
}

/// What a place may hold instead of its own bytes.
type Spoilt = (usize, [u8; PLACE]);

/// A set whose places are spoilt one at a time.
struct Places {
    list: Set,
    seed: u64,
}

impl Places {
    fn cards(&self) -> impl Iterator<Item = (usize, &[u8])> {
        self.list.cards()
    }

    /// Every place with something about it: its own card, or none.
    fn places(&self) -> impl Iterator<Item = (usize, &[u8])> {
        self.cards().chain(FREE.map(|place| (place, &[][..])))
    }

    /// With the summary from before and with one that leaves the place out, or that takes what it now holds where that
    /// reads; each by either call, of a card that the set has.
    fn asked(&self, (place, bytes): &Spoilt, nth: usize) -> Asked {
        let (_, card) = self.cards().nth(nth / 4 % self.cards().count()).expect("it has cards");
        let mut asked = Asked::new(CALLS[nth % 2], &self.list, card);
        asked.set[place * PLACE..][..PLACE].copy_from_slice(bytes);
        asked.before = nth % 9;
        if nth / 2 % 2 == 1 {
            asked.summary = Set::in_bytes(&asked.set).unwrap_or_else(|_| self.list.without(*place)).summary();
        }
        asked
    }

    fn compare(&self, groups: &mut Groups, name: &str, spoilt: &[Spoilt]) {
        let nth = |nth: usize| self.asked(&spoilt[nth / 4], nth);
        let name = format!("sets with a spoilt place, {name}");
        groups.shared_group(&name, 4 * spoilt.len(), nth, Asked::ours, Asked::theirs);
    }

    /// Each bit of each card.
    fn flipped(&self) -> Vec<Spoilt> {
        let of_card = |(place, card): (usize, &[u8])| {
            let whole = padded(card);
            let flipped = (0..8 * card.len()).map(move |bit| {
                let mut bytes = whole;
                bytes[bit / 8] ^= 0x80 >> (bit % 8);
                (place, bytes)
            });
            flipped.collect::<Vec<_>>()
        };
        self.cards().flat_map(of_card).collect()
    }

    /// Each byte behind a card, and of a free place, to 1 and to another number.
    fn set_behind(&self) -> Vec<Spoilt> {
        let mut dice = Dice::new(self.seed, SPOILT_STREAM);
        let mut of_place = |(place, card): (usize, &[u8])| {
            let whole = padded(card);
            let bytes = (card.len()..PLACE).flat_map(|at| [(at, 1), (at, 1 + dice.below(255) as u8)]);
            let set = bytes.map(|(at, byte)| {
                let mut bytes = whole;
                bytes[at] = byte;
                (place, bytes)
            });
            set.collect::<Vec<_>>()
        };
        self.places().flat_map(&mut of_place).collect()
    }

    /// Each card cut to each length, and its front lost up to each.
    fn cut(&self) -> Vec<Spoilt> {
        let of_card = |(place, card): (usize, &[u8])| {
            let ends = (0..card.len()).flat_map(|at| [padded(&card[..at]), padded(&card[at + 1..])]);
            ends.map(|bytes| (place, bytes)).collect::<Vec<_>>()
        };
        self.cards().flat_map(of_card).collect()
    }

    /// The longest cards and a short one, with every count.
    fn counted(&self) -> Vec<Spoilt> {
        let of_card = |(place, card): (usize, &[u8])| {
            let layout = if card[0] >> 4 == 1 { LAYOUT_1 } else { LAYOUT_2 };
            let every =
                (0..=layout.most_segments).map(|count| (place, padded(&with_count(card, layout, count))));
            every.collect::<Vec<_>>()
        };
        self.cards().filter(|(place, _)| [5, 1_022, 1_023].contains(place)).flat_map(of_card).collect()
    }

    /// Any bytes in a free place and in the first and last one: a few, many, all alike.
    fn any(&self) -> Vec<Spoilt> {
        let mut dice = Dice::new(self.seed, SPOILT_STREAM + 1);
        let any = |_| {
            let (place, few) = (dice.one_of(&[0, 1, 2, 512, PLACES - 1]), dice.below(PLACE));
            let mut bytes = [dice.one_of(&[0, 0, 0xff, 0x10, 0x1c]); PLACE];
            bytes[..few].fill_with(|| dice.below(256) as u8);
            (place, bytes)
        };
        (0..ANY).map(any).collect()
    }
}

/// A card with zeros behind it.
pub fn padded(card: &[u8]) -> [u8; PLACE] {
    let mut bytes = [0; PLACE];
    bytes[..card.len()].copy_from_slice(card);
    bytes
}

/// Cards that are too long for a place from its front on, and short ones moved up to and over a border.
fn across(seed: u64) -> Vec<(usize, Vec<u8>)> {
    let long = LAYOUTS.map(|layout| of_kind(seed, STREAM, (layout, most_in_place(layout) + 1)));
    let at_front =
        long.iter().flat_map(|card| [0, 1, 1_022, 1_023].map(|place| (place * PLACE, card.clone())));
    let short = [keyless(), lone(5_000, 3), of_kind(seed, STREAM, (LAYOUT_1, 12))];
    let moved = short.iter().flat_map(|card| (1..PLACE).map(|by| (by, card.clone())));
    at_front.chain(moved).collect()
}

/// With the summary of an empty set, and with one that has the card.
fn compare_across(groups: &mut Groups) {
    let cards = across(groups.seed);
    let asked = |nth: usize| {
        let (from, card) = &cards[nth / 4];
        let mut asked = Asked::new(CALLS[nth % 2], &Set::empty(), card);
        asked.set.iter_mut().skip(*from).zip(card).for_each(|(byte, of_card)| *byte = *of_card);
        if nth / 2 % 2 == 1 {
            asked.summary = summary_of([&Meaning::read(card).expect("a card that reads")].into_iter());
        }
        asked
    };
    let name = "sets with a card across places";
    groups.shared_group(name, 4 * cards.len(), asked, Asked::ours, Asked::theirs);
}

pub fn compare_places(groups: &mut Groups) {
    let places = Places { list: few_cards(groups.seed), seed: groups.seed };
    places.compare(groups, "each bit of its card turned round", &places.flipped());
    places.compare(groups, "each byte behind its card or of a free one set", &places.set_behind());
    places.compare(groups, "its card cut at each byte", &places.cut());
    places.compare(groups, "every count of segments", &places.counted());
    places.compare(groups, "any bytes", &places.any());
    compare_across(groups);
}
