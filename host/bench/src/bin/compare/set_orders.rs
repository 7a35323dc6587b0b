//! Each refusal of a call on a set alone and with each later one: memory that is not a set with its summary, cards that
//! are refused, cards that are too long, full sets, absent cards. And sets and summaries of other sizes.
use crate::card_breaches::{BREACHES, Breach, good};
use crate::card_model::{LAYOUT_1, LAYOUT_2, LAYOUTS, Layout, Meaning, NEEDLESS_LAYOUT, RULE_BROKEN};
use crate::card_orders::{readings, with_other_faults};
use crate::groups::Groups;
use crate::packed_cards::chosen;
use crate::set_calls::Asked;
use crate::set_cards::{lone, most_in_place, numbered};
use crate::set_model::{
    CALLS, CARD_TOO_LONG, Call, NO_SUCH_CARD, NOT_TRUE, NUMBERS, PLACE, PLACES, SET, SET_FULL, Set,
};
use crate::set_places::few_cards;
use bench::inputs::dice::Dice;

/// Streams of the seed from here on.
const STREAM: u64 = 450_000;

/// Sizes of lent bytes and of lent numbers.
const SIZES: [usize; 9] = [0, 1, PLACE, SET - PLACE, SET - 1, SET, SET + 1, SET + PLACE, 2 * SET];
const COUNTS: [usize; 7] = [0, 1, NUMBERS - 2, NUMBERS - 1, NUMBERS, NUMBERS + 1, 2 * NUMBERS];

/// Memory is no set with its summary for its size, a place, or a number.
const SPOILS: [fn(&mut Asked); 10] = [
    |asked| asked.set.truncate(SET - 1),
    |asked| asked.set.push(0),
    |asked| asked.set.clear(),
    |asked| asked.summary.truncate(NUMBERS - 1),
    |asked| asked.summary.push(0),
    |asked| asked.summary.clear(),
    |asked| asked.set[PLACE - 1] = 1,
    |asked| asked.set[SET - 1] = 1,
    |asked| asked.summary[0] ^= 1,
    |asked| asked.summary[NUMBERS - 1] ^= 1,
];

/// A card with the refusal that reading gives it.
#[derive(Clone)]
struct Given {
    bytes: Vec<u8>,
    read: Option<u32>,
}

impl Given {
    /// What the card alone is refused with, on a set that has room for it or has it.
    fn refusal(&self) -> Option<u32> {
        self.read.or((self.bytes.len() > PLACE).then_some(CARD_TOO_LONG))
    }
}

/// A card with its own refusal or none, and with each combination of others that reading has.
fn with_faults(said: Meaning, layout: Layout, own: Option<u32>) -> impl Iterator<Item = Given> {
    let rows = [said.segments.len(); 4];
    let readings = with_other_faults((said, layout, own)).into_iter();
    let with_rows = readings.filter(move |reading| reading.rows == rows);
    with_rows.map(|reading| Given { read: reading.refusal(), bytes: reading.bytes })
}

fn breach(rule: &str) -> &'static Breach {
    BREACHES.iter().find(|breach| breach.rule == rule).expect("a rule of that name")
}

/// So many segments in each layout: good ones, a rule broken, and in layout 2 without need.
fn of_count(seed: u64, count: impl Fn(Layout) -> usize) -> Vec<Given> {
    let good = |layout: Layout| good(seed, STREAM + layout.number, (layout, count(layout)));
    let broken = |layout: Layout| {
        let mut said = good(layout);
        (breach("confidence above 1,000").breaks)(&mut said, layout, &mut Dice::new(seed, STREAM));
        said
    };
    let whole = LAYOUTS.into_iter().flat_map(|layout| with_faults(good(layout), layout, None));
    let refused =
        LAYOUTS.into_iter().flat_map(|layout| with_faults(broken(layout), layout, Some(RULE_BROKEN)));
    let needless = with_faults(good(LAYOUT_1), LAYOUT_2, Some(NEEDLESS_LAYOUT));
    whole.chain(refused).chain(needless).collect()
}

/// Cards that fit a place but for their faults, and such as are too long.
fn all_given(seed: u64) -> Vec<Given> {
    let too_long = of_count(seed, |layout| most_in_place(layout) + 1);
    of_count(seed, |_| 5).into_iter().chain(too_long).collect()
}

/// Of those that fit and of those that are too long, the first with each refusal.
fn one_of_each(given: &[Given]) -> Vec<Given> {
    let is_first = |at: usize| {
        let kind = |given: &Given| (given.refusal(), given.bytes.len() > PLACE);
        !given[..at].iter().any(|before| kind(before) == kind(&given[at]))
    };
    (0..given.len()).filter(|&at| is_first(at)).map(|at| given[at].clone()).collect()
}

/// A call on a set, which may be spoilt; the refusal is the first of those of all its faults.
fn asked(list: &Set, given: &Given, spoils: Option<&fn(&mut Asked)>, call: Call) -> Asked {
    let mut asked = Asked::new(call, list, &given.bytes);
    let is_full = list.cards().count() == PLACES;
    let is_absent = !list.cards().any(|(_, card)| card == given.bytes);
    let at_last = match call {
        Call::Add => is_full.then_some(SET_FULL),
        Call::Remove => is_absent.then_some(NO_SUCH_CARD),
    };
    if let Some(spoils) = spoils {
        spoils(&mut asked);
    }
    let wanted = spoils.map(|_| NOT_TRUE).or(given.refusal()).or(at_last);
    assert_eq!(asked.answer().refusal, wanted.unwrap_or(0));
    asked
}

/// Each card with each fault of the memory and without one, by either call.
fn compare_orders(groups: &mut Groups, name: &str, list: &Set, given: &[Given]) {
    let faults = SPOILS.len() + 1;
    let nth = |nth: usize| {
        let (card, fault) = (&given[nth / 2 / faults], nth / 2 % faults);
        asked(list, card, SPOILS.get(fault), CALLS[nth % 2])
    };
    let name = format!("{name}, each refusal alone and with each later one");
    groups.shared_group(&name, 2 * faults * given.len(), nth, Asked::ours, Asked::theirs);
}

/// Every card of the comparison of reading that is refused, and those that are not.
fn compare_read(groups: &mut Groups, list: &Set) {
    let mut cards: Vec<Vec<u8>> = readings(groups.seed).into_iter().map(|reading| reading.bytes).collect();
    cards.sort_unstable();
    cards.dedup();
    let nth = |nth: usize| Asked::new(CALLS[nth % 2], list, &cards[nth / 2]);
    let name = "sets, cards as reading judges them";
    groups.shared_group(name, 2 * cards.len(), nth, Asked::ours, Asked::theirs);
}

/// Sets and summaries cut or with zeros behind them.
fn compare_sizes(groups: &mut Groups) {
    let card = lone(5_000, 3);
    let (empty, with_card) = (Set::empty(), Set::of([(0, card.clone())]));
    let asked = |mut nth: usize| {
        let call = chosen(&mut nth, &CALLS);
        let mut asked = Asked::new(call, chosen(&mut nth, &[&empty, &with_card]), &card);
        asked.set.resize(chosen(&mut nth, &SIZES), 0);
        asked.summary.resize(chosen(&mut nth, &COUNTS), 0);
        asked
    };
    let count = 4 * SIZES.len() * COUNTS.len();
    groups.shared_group("sets and summaries of other sizes", count, asked, Asked::ours, Asked::theirs);
}

pub fn compare_refusals(groups: &mut Groups) {
    let given = all_given(groups.seed);
    let few = few_cards(groups.seed);
    let with_first =
        few.cards().map(|(place, card)| (place, card.to_vec())).chain([(6, given[0].bytes.clone())]);
    compare_orders(groups, "sets", &Set::of(with_first), &given);
    let full = (0..PLACES).map(|place| (place, numbered(place)));
    let full = Set::of(full.chain([(PLACES - 1, given[0].bytes.clone())]));
    compare_orders(groups, "full sets", &full, &one_of_each(&given));
    compare_read(groups, &few);
    compare_sizes(groups);
}
