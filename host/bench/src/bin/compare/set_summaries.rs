//! Lent summaries that are not the set's: each number one more and one less, wrapped and far off, numbers that changed
//! places, milliseconds at another key, the summary that the call would leave.
use crate::groups::Groups;
use crate::set_calls::Asked;
use crate::set_cards::{keyless, lone, of_a_day};
use crate::set_model::{CALLS, NUMBERS, PLACES, Set};
use crate::set_places::few_cards;

/// What is added to a number, which may wrap.
const MORE: [u64; 8] = [1, u64::MAX, 1 << 8, 1 << 16, 1 << 31, 1 << 32, 1 << 63, u64::MAX << 32];

/// Numbers in the place of others.
const INSTEAD: [u64; 4] = [0, 1, u64::MAX, u64::MAX - 1];

/// A set, a card that both calls take, and the summaries that are lent in turn.
struct Sums {
    list: Set,
    card: Vec<u8>,
    summaries: Vec<Vec<u64>>,
}

fn pairs() -> impl Iterator<Item = (usize, usize)> {
    (0..NUMBERS).flat_map(|one| (0..NUMBERS).map(move |other| (one, other)))
}

/// Each number changed alone.
fn single_changes(whole: &[u64]) -> Vec<Vec<u64>> {
    let changed = |at: usize, number: u64| {
        let mut summary = whole.to_vec();
        summary[at] = number;
        summary
    };
    let more = (0..NUMBERS).flat_map(|at| MORE.map(|more| changed(at, whole[at].wrapping_add(more))));
    more.chain((0..NUMBERS).flat_map(|at| INSTEAD.map(|number| changed(at, number)))).collect()
}

/// Two numbers exchanged, and one of either given to the other.
fn double_changes(whole: &[u64]) -> Vec<Vec<u64>> {
    let both = |(one, other): (usize, usize)| {
        let (mut exchanged, mut given) = (whole.to_vec(), whole.to_vec());
        exchanged.swap(one, other);
        given[one] = given[one].wrapping_sub(1);
        given[other] = given[other].wrapping_add(1);
        [exchanged, given]
    };
    pairs().flat_map(both).collect()
}

/// The true summary, those that the calls would leave, and all changes.
fn summaries(list: &Set, card: &[u8]) -> Vec<Vec<u64>> {
    let whole = list.summary();
    let after = CALLS.map(|call| {
        let mut list = list.clone();
        list.change(call, card);
        list.summary()
    });
    let rotated: Vec<u64> = whole[1..].iter().chain(&whole[..1]).copied().collect();
    let all = after.into_iter().chain([vec![u64::MAX; NUMBERS], vec![0; NUMBERS], rotated]);
    all.chain(single_changes(&whole)).chain(double_changes(&whole)).chain([whole]).collect()
}

impl Sums {
    fn new(list: Set, card: Vec<u8>) -> Self {
        let summaries = summaries(&list, &card);
        Self { list, card, summaries }
    }

    fn asked(&self, nth: usize) -> Asked {
        let summary = self.summaries[nth / 2].clone();
        Asked { summary, ..Asked::new(CALLS[nth % 2], &self.list, &self.card) }
    }

    fn compare(&self, groups: &mut Groups, name: &str) {
        let name = format!("sets with another summary, {name}");
        let count = 2 * self.summaries.len();
        groups.shared_group(&name, count, |nth| self.asked(nth), Asked::ours, Asked::theirs);
    }
}

/// All places taken, half of them by cards without a key.
fn full() -> Set {
    Set::of((0..PLACES).map(|place| (place, if place % 2 == 0 { keyless() } else { of_a_day(5) })))
}

pub fn compare_summaries(groups: &mut Groups) {
    let few = few_cards(groups.seed);
    Sums::new(Set::empty(), lone(5_000, 3)).compare(groups, "an empty set");
    Sums::new(few.clone(), lone(0, 7)).compare(groups, "a few cards");
    Sums::new(few, keyless()).compare(groups, "a few cards, one without a key");
    Sums::new(full(), of_a_day(5)).compare(groups, "a full set");
}
