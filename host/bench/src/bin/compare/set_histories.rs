//! Random histories of sets: cards added and taken out, equal ones among them, and refused calls in between.
use crate::card_model::Meaning;
use crate::groups::{Compared, Groups};
use crate::set_cards::{Sort, fitting, keyless, longest, nearly, refused};
use crate::set_model::{CALLS, Call, NO_SUCH_CARD, NUMBERS, PLACE, PLACES, SET_FULL, Set};
use crate::set_runs::{Spoiling, Step, first_difference};
use bench::inputs::dice::Dice;
use std::collections::HashMap;

/// Streams of the seed from here on, so many for each history.
const STREAM: u64 = 20_000_000;
const STREAMS: u64 = 64;

const HISTORIES: usize = 2_000;

/// The most calls of a history, and of most of those that fill no set.
const MOST_CALLS: usize = 3_000;
const FEWER_CALLS: usize = 300;

/// One history in so many fills its set, one of a few of these with the longest cards.
const FILLING: usize = 100;
const FILLING_LONG: usize = 5;

/// Of a hundred calls so many add, at least and below; and of the first calls where the set is filled.
const ADDING: [usize; 2] = [40, 60];
const ADDING_FIRST: usize = 95;
const FIRST_CALLS: usize = 1_600;

/// Of a hundred calls so many are of cards that are refused, and so many take out cards that were never added.
const REFUSED: usize = 10;
const ABSENT: usize = 3;

/// Before one call in so many something befalls the lent memory.
const SPOILT: usize = 50;

/// A history draws from so many cards at most, and from more where it fills its set.
const CARDS: usize = 10;
const MORE_CARDS: usize = 40;

/// So many histories show that every answer and every form of card is among them.
const LOOKED_AT: usize = 200;

/// So many bytes are the front of a place.
const SHORT: usize = 24;

/// The set begins up to so many bytes behind an address.
const ADDRESSES: usize = 64;

/// What a history's calls are drawn from.
struct History {
    nth: usize,
    calls: usize,
    fills: bool,
    adding: usize,
    before: usize,
    cards: Vec<Vec<u8>>,
    absent: Vec<Vec<u8>>,
    refused: [Vec<u8>; 5],
    seed: u64,
}

/// By its number.
impl Compared for History {
    fn same(&self, other: &Self) -> bool {
        self.nth == other.nth
    }

    fn shown(&self) -> String {
        format!("history {} of {} calls, {} before", self.nth, self.calls, self.before)
    }
}

fn first_stream(nth: usize) -> u64 {
    STREAM + nth as u64 * STREAMS
}

fn fills(nth: usize) -> bool {
    nth.is_multiple_of(FILLING)
}

/// As many of 1 to 2 calls as of 2 to 4, and so on up to the most.
fn calls(nth: usize, dice: &mut Dice) -> usize {
    let most = if nth.is_multiple_of(2) { MOST_CALLS } else { FEWER_CALLS };
    if fills(nth) { MOST_CALLS } else { (most as f32).powf(dice.unit()).round() as usize }
}

fn sort(nth: usize) -> Sort {
    match (fills(nth), (nth / FILLING).is_multiple_of(FILLING_LONG)) {
        (false, _) => Sort::Any,
        (true, true) => Sort::Longest,
        (true, false) => Sort::Brief,
    }
}

/// The calls of all histories.
fn all_calls(seed: u64) -> usize {
    (0..HISTORIES).map(|nth| calls(nth, &mut Dice::new(seed, first_stream(nth)))).sum()
}

impl History {
    fn new(seed: u64, nth: usize) -> Self {
        let (stream, mut dice) = (first_stream(nth), Dice::new(seed, first_stream(nth)));
        let (calls, fills) = (calls(nth, &mut dice), fills(nth));
        let count = 1 + dice.below(if fills { MORE_CARDS } else { CARDS });
        let cards = (1..=count as u64).map(|more| fitting(seed, stream + more, sort(nth), &mut dice));
        let cards: Vec<Vec<u8>> = cards.collect();
        let absent = cards.iter().map(|card| nearly(card)).filter(|card| !cards.contains(card));
        Self {
            nth,
            calls,
            fills,
            adding: ADDING[0] + dice.below(ADDING[1] - ADDING[0]),
            before: dice.below(ADDRESSES),
            absent: absent.collect(),
            refused: refused(seed, stream, &mut dice),
            cards,
            seed,
        }
    }

    /// Its calls, one after the other.
    fn steps(&self) -> impl Iterator<Item = Step<'_>> {
        let mut dice = Dice::new(self.seed, first_stream(self.nth) + STREAMS - 1);
        (0..self.calls).map(move |turn| self.step(turn, &mut dice))
    }

    fn step(&self, turn: usize, dice: &mut Dice) -> Step<'_> {
        let adding = if self.fills && turn < FIRST_CALLS { ADDING_FIRST } else { self.adding };
        let call = if dice.below(100) < adding { Call::Add } else { Call::Remove };
        let odd = dice.below(100);
        let (call, card) = if odd < REFUSED {
            (dice.one_of(&CALLS), one_of(&self.refused, dice))
        } else if odd < REFUSED + ABSENT && !self.absent.is_empty() {
            (Call::Remove, one_of(&self.absent, dice))
        } else {
            (call, one_of(&self.cards, dice))
        };
        let spoiling = dice.one_in(SPOILT).then(|| self.spoiling(dice));
        Step { call, card, spoiling }
    }

    /// A byte at the front of a place or anywhere in it, or numbers of the summary.
    fn spoiling(&self, dice: &mut Dice) -> Spoiling {
        let places = dice.one_of(&[PLACES, 2 * self.cards.len()]);
        let place = dice.below(places);
        let length = dice.one_of(&[PLACE, SHORT]);
        let [one, other] = [0; 2].map(|_| dice.below(NUMBERS));
        match dice.below(4) {
            0 => Spoiling::Number { at: one, by: dice.one_of(&[1, 1 << 32, u64::MAX]) },
            1 => Spoiling::Exchange { one, other },
            _ => Spoiling::Byte { at: place * PLACE + dice.below(length), bits: 1 << dice.below(8) },
        }
    }

    fn first_difference(&self) -> Option<String> {
        first_difference(self.before, self.steps())
    }
}

fn one_of<'a>(cards: &'a [Vec<u8>], dice: &mut Dice) -> &'a [u8] {
    &cards[dice.below(cards.len())]
}

/// How often each call has each answer, by the list alone; calls on spoilt memory are left out.
fn answers(seed: u64) -> HashMap<(Call, u32), usize> {
    let mut counts = HashMap::new();
    for nth in 0..LOOKED_AT {
        let (history, mut list) = (History::new(seed, nth), Set::empty());
        for Step { call, card, .. } in history.steps().filter(|step| step.spoiling.is_none()) {
            *counts.entry((call, list.change(call, card).refusal)).or_default() += 1;
        }
    }
    counts
}

/// Whether each answer that a call can have comes often.
fn answers_come_often(seed: u64) -> bool {
    let counts = answers(seed);
    let often = |call, refusal| counts.get(&(call, refusal)).is_some_and(|&count| count > LOOKED_AT);
    let both = [0, 20, 21, 22, 23, 30].iter().all(|&refusal| CALLS.iter().all(|&call| often(call, refusal)));
    both && often(Call::Add, SET_FULL) && often(Call::Remove, NO_SUCH_CARD)
}

/// Whether the shortest card, one segment that ends at 0, and the longest cards that fit are among the cards.
fn all_forms_come(seed: u64) -> bool {
    let cards: Vec<Vec<u8>> = (0..LOOKED_AT).flat_map(|nth| History::new(seed, nth).cards).collect();
    let ends_at_0 = |card: &Vec<u8>| {
        Meaning::read(card).is_ok_and(|said| said.segments.last().is_some_and(|last| last.end == 0))
    };
    let lengths = longest().map(|(layout, count)| layout.length_of(count));
    cards.contains(&keyless())
        && cards.iter().any(ends_at_0)
        && lengths.iter().all(|&length| cards.iter().any(|card| card.len() == length))
}

pub fn compare_histories(groups: &mut Groups) {
    let seed = groups.seed;
    assert!(answers_come_often(seed), "some answers hardly come");
    assert!(all_forms_come(seed), "some cards don't come");
    let name = format!("sets, random histories of {} calls in all", all_calls(seed));
    let nth = |nth| History::new(seed, nth);
    groups.shared_group(&name, HISTORIES, nth, History::first_difference, |_| None);
}
