//! A card added to a set and taken out again, by the library and by plain Rust: microseconds for one call.
use crate::cards::card;
use crate::plain_sets;
use crate::rounds::{Pair, header, seconds};
use std::cell::RefCell;
use ulyptesh::calls::{SET_BYTES, SET_PLACES, SUMMARY_NUMBERS, SetChange, add_card, remove_card};

/// Cards that are in the set already, their segments, and how many calls are a round. The longest that fit a place have
/// 103 segments.
const SETS: [(usize, usize, usize); 4] =
    [(0, 12, 1_000), (500, 12, 200), (SET_PLACES - 1, 1, 200), (SET_PLACES - 1, 103, 50)];

/// The thousandths that tell the cards in the set apart, and those of the card that comes and goes.
const THOUSANDTHS: usize = 1_000;

type Call = fn(&mut [u8], &mut [u64], &[u8]) -> SetChange;

/// Adding and taking out, by one side.
type Side = [Call; 2];

const OURS: Side = [add_card, remove_card];
const PLAIN: Side = [plain_sets::add_card, plain_sets::remove_card];

/// Lent memory, and a card that comes and goes.
#[derive(Clone, PartialEq)]
struct Lent {
    set: Vec<u8>,
    summary: [u64; SUMMARY_NUMBERS],
    card: Vec<u8>,
}

impl Lent {
    fn new(count: usize, segments: usize) -> Self {
        let (mut set, mut summary) = (vec![0; SET_BYTES], [0; SUMMARY_NUMBERS]);
        for nth in 0..count {
            let added = add_card(&mut set, &mut summary, &card(segments, (nth % THOUSANDTHS) as u32));
            assert_eq!(added, SetChange { refusal: 0, place: nth as u32 });
        }
        Self { set, summary, card: card(segments, THOUSANDTHS as u32) }
    }

    fn call(&mut self, call: Call) -> SetChange {
        call(&mut self.set, &mut self.summary, &self.card)
    }

    /// Microseconds of adding or of taking out, where both follow each other so many times.
    fn microseconds(&mut self, side: Side, which: usize, turns: usize) -> f64 {
        let mut turn = || side.map(|call| 1e6 * seconds(|| self.call(call)))[which];
        (0..turns).map(|_| turn()).sum::<f64>() / turns as f64
    }
}

/// Either side puts the card behind the others, leaves the same, and takes it out again.
fn assert_alike(lent: &Lent, count: usize) {
    let changed = SetChange { refusal: 0, place: count as u32 };
    let with_card = |side: Side| {
        let mut after = lent.clone();
        assert_eq!(after.call(side[0]), changed);
        let with_card = after.clone();
        assert_eq!(after.call(side[1]), changed);
        assert!(after == *lent);
        with_card
    };
    assert!(with_card(OURS) == with_card(PLAIN));
}

fn print_pair(count: usize, segments: usize, turns: usize) {
    let lent = Lent::new(count, segments);
    assert_alike(&lent, count);
    let lent = RefCell::new(lent);
    for (which, what) in ["in", "out"].into_iter().enumerate() {
        let time = |side: Side| lent.borrow_mut().microseconds(side, which, turns);
        let pair = Pair::of_times(|| time(OURS), || time(PLAIN));
        pair.print(&format!("{count} of {segments} segments, {what}"));
    }
}

pub fn print_rows() {
    header("us for a card, beside others", "plain Rust");
    SETS.into_iter().for_each(|(count, segments, turns)| print_pair(count, segments, turns));
}
