//! Sets at their limits: all places taken and given back, all cards equal, the largest totals, cards of every number of
//! segments, cards of 512 bytes, and memory at every address.
use crate::analyses::{Kind, kinds};
use crate::card_model::{
    LAYOUT_1, LAYOUT_2, LAYOUTS, Layout, MISSING, Meaning, UNKNOWN_LAYOUT, WRONG_LENGTH,
};
use crate::card_reads::set_layout;
use crate::groups::{Compared, Groups};
use crate::set_calls::Asked;
use crate::set_cards::{
    keyless, longest, longest_numbered, most_in_place, numbered, of_a_day, of_kind, with_count,
};
use crate::set_model::{CALLS, Call, PLACE, PLACES, Set};
use crate::set_places::few_cards;
use crate::set_runs::{Step, first_difference};
use bench::inputs::dice::Dice;

/// Streams of the seed from here on.
const STREAM: u64 = 460_000;

/// So many addresses one behind the other.
const ADDRESSES: usize = 64;

/// Of the longest cards so many places are given back.
const GIVEN_BACK: usize = 100;

/// Calls one after the other, each with a card by its place in a list.
struct Script {
    name: &'static str,
    cards: Vec<Vec<u8>>,
    calls: Vec<(Call, usize)>,
}

/// By its name.
impl Compared for &Script {
    fn same(&self, other: &Self) -> bool {
        self.name == other.name
    }

    fn shown(&self) -> String {
        format!("{}, {} calls", self.name, self.calls.len())
    }
}

impl Script {
    fn first_difference(&self) -> Option<String> {
        let step = |&(call, card): &(Call, usize)| Step { call, card: &self.cards[card], spoiling: None };
        first_difference(1, self.calls.iter().map(step))
    }

    /// All cards, one more than there are places, in turn, then each taken out once more often than it was added.
    fn filled_and_emptied(name: &'static str, cards: Vec<Vec<u8>>) -> Self {
        let turns = (0..=PLACES).map(|turn| turn % cards.len());
        let calls = CALLS.into_iter().flat_map(|call| turns.clone().map(move |card| (call, card)));
        let calls = calls.chain((0..cards.len()).map(|card| (Call::Remove, card))).collect();
        Self { name, cards, calls }
    }

    /// All places taken; then so many given back in any order, each taken again by the card that was left over.
    fn one_by_one(name: &'static str, seed: u64, cards: Vec<Vec<u8>>, given_back: usize) -> Self {
        let mut order: Vec<usize> = (0..PLACES).collect();
        Dice::new(seed, STREAM).shuffle(&mut order);
        let mut left_over = PLACES;
        let exchanges = order.into_iter().take(given_back).flat_map(|card| {
            let taken = std::mem::replace(&mut left_over, card);
            [(Call::Remove, card), (Call::Add, taken), (Call::Add, card)]
        });
        let calls = (0..=PLACES).map(|card| (Call::Add, card)).chain(exchanges).collect();
        Self { name, cards, calls }
    }

    /// All places taken, half of them given back in any order, taken again by others, and all given back.
    fn half_at_once(name: &'static str, seed: u64) -> Self {
        let half = PLACES / 2;
        let [mut first, mut last]: [Vec<usize>; 2] = [(0..PLACES).collect(), (half..PLACES + half).collect()];
        let mut dice = Dice::new(seed, STREAM + 1);
        dice.shuffle(&mut first[..half]);
        dice.shuffle(&mut last);
        let added = (0..PLACES).map(|card| (Call::Add, card));
        let back = first[..half].iter().map(|&card| (Call::Remove, card));
        let others = (PLACES..=PLACES + half).map(|card| (Call::Add, card));
        let calls = added.chain(back).chain(others).chain(last.iter().map(|&card| (Call::Remove, card)));
        Self { name, cards: (0..=PLACES + half).map(numbered).collect(), calls: calls.collect() }
    }
}

fn scripts(seed: u64) -> Vec<Script> {
    let brief = (0..=PLACES).map(numbered).collect();
    let long = |number| longest_numbered(seed, STREAM + number as u64, number);
    let days = (0..MISSING).map(of_a_day).collect();
    vec![
        Script::one_by_one("brief cards", seed, brief, PLACES),
        Script::half_at_once("half of the places", seed),
        Script::one_by_one("longest cards", seed, (0..=PLACES).map(long).collect(), GIVEN_BACK),
        Script::filled_and_emptied("one card", vec![numbered(7)]),
        Script::filled_and_emptied("two cards in turn", vec![numbered(7), numbered(8)]),
        Script::filled_and_emptied("no keys", vec![keyless()]),
        Script::filled_and_emptied("a day in one key", vec![of_a_day(23)]),
        Script::filled_and_emptied("a day in each key in turn", days),
    ]
}

fn compare_full(groups: &mut Groups) {
    let scripts = scripts(groups.seed);
    let calls: usize = scripts.iter().map(|script| script.calls.len()).sum();
    let name = format!("sets filled and emptied by {calls} calls in all");
    let ours = |script: &&Script| script.first_difference();
    groups.shared_group(&name, scripts.len(), |nth| &scripts[nth], ours, |_| None);
}

/// Cards of every number of segments up to twice as many as fit, and of the most, added to an empty set, or taken out
/// of a set that has them where they fit.
fn compare_kinds(groups: &mut Groups) {
    let (seed, few) = (groups.seed, 2 * most_in_place(LAYOUT_1));
    let most = LAYOUTS.map(|layout| (layout, layout.most_segments));
    let kinds: Vec<Kind> = kinds(few).into_iter().chain(most).collect();
    let asked = |nth: usize| {
        let (call, card) = (CALLS[nth % 2], of_kind(seed, STREAM, kinds[nth / 2]));
        let is_there = call == Call::Remove && card.len() <= PLACE;
        Asked::new(call, &Set::of(is_there.then(|| (nth % PLACES, card.clone()))), &card)
    };
    let name = format!("sets, cards of 0 to {few} segments and of the most");
    groups.shared_group(&name, 2 * kinds.len(), asked, Asked::ours, Asked::theirs);
}

/// Every layout with every count, as many bytes as a place has; none of them is a card.
fn of_512_bytes(seed: u64) -> Vec<Vec<u8>> {
    let mut dice = Dice::new(seed, STREAM);
    let mut whole = |card: &[u8]| {
        let behind = dice.below(256) as u8;
        card.iter().copied().chain(std::iter::repeat(behind)).take(PLACE).collect::<Vec<u8>>()
    };
    let [long_1, long_2] = longest().map(|kind| of_kind(seed, STREAM, kind));
    let every = |layout: Layout| (0..1 << layout.count_bits).map(move |count| (layout, count));
    let counted = LAYOUTS.into_iter().flat_map(every).map(|(layout, count)| {
        assert_ne!(layout.length_of(count), PLACE);
        whole(&with_count(if layout == LAYOUT_2 { &long_2 } else { &long_1 }, layout, count))
    });
    let mut all: Vec<Vec<u8>> = counted.collect();
    all.extend((0..16).map(|number| {
        let mut bytes = whole(&long_1);
        set_layout(&mut bytes, number);
        bytes
    }));
    all
}

fn compare_512_bytes(groups: &mut Groups) {
    let (cards, list) = (of_512_bytes(groups.seed), few_cards(groups.seed));
    let asked = |nth: usize| {
        let card = &cards[nth / 2];
        assert!(matches!(Meaning::read(card), Err(WRONG_LENGTH | UNKNOWN_LAYOUT)));
        Asked::new(CALLS[nth % 2], &list, card)
    };
    let name = "sets, 512 bytes with every layout and count";
    groups.shared_group(name, 2 * cards.len(), asked, Asked::ours, Asked::theirs);
}

/// Set and card begin at any address: each of their cards is taken out, and one of them added.
fn compare_addresses(groups: &mut Groups) {
    let list = few_cards(groups.seed);
    let cards: Vec<&[u8]> = list.cards().map(|(_, card)| card).collect();
    let asked = |nth: usize| {
        let (before, call) = (nth / 2 % ADDRESSES, CALLS[nth % 2]);
        Asked { before, ..Asked::new(call, &list, cards[nth / 2 / ADDRESSES]) }
    };
    let count = 2 * ADDRESSES * cards.len();
    groups.shared_group("sets at every address", count, asked, Asked::ours, Asked::theirs);
}

pub fn compare_edges(groups: &mut Groups) {
    compare_full(groups);
    compare_kinds(groups);
    compare_512_bytes(groups);
    compare_addresses(groups);
}
