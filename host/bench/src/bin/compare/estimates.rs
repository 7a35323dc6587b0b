//! Majority keys, and the segments of given estimates with the windows behind each, beside the oracle's.
use crate::estimate_lists::{as_theirs, estimates, key_numbers};
use crate::groups::{Groups, compared_as_shown};
use crate::rows::windows_in_all;
use crate::segment_lists::{put_joined, untouched_segments};
use bench::inputs::dice::Dice;
use bench::oracle::key_lime::expose::{key_from_index, key_number, majority_key};
use bench::oracle::windows_behind::{groups, segments_of};
use bench::probe::segments::{Cutting, cut, majority};
use ulyptesh::calls::{EstimateRows, SegmentRows};

/// Streams of the seed from here on are the estimates'.
const STREAM: u64 = 60_020;

/// So many lists of keys, of estimates, and of estimates that are refused.
const KEY_LISTS: usize = 100_000;
const ESTIMATE_LISTS: usize = 100_000;
const REFUSED: usize = 10_000;

const THRESHOLDS: [f32; 8] = [0.35, 0.35, 0.0, 0.5, 1.0, -1.0, 1e-30, f32::NAN];

const MINIMA: [f32; 9] = [0.0, 0.0, 12.0, 12.0, 0.5, 2.0, 6.0, 1e30, -1.0];

/// From the last middle to the end of the track.
const ENDINGS: [f64; 6] = [0.0, 0.25, 6.0, 6.3, 100.0, -2.0];

/// Estimates, what their segments rest on beside them, and the lengths of the segment rows.
#[derive(Debug, Clone)]
struct Lent {
    cutting: Cutting,
    estimates: EstimateRows,
    room: [usize; 5],
}

compared_as_shown!(Lent);

impl Lent {
    /// A number is no key's, the lists are not equally long, or the rows too few.
    fn refused(&self) -> bool {
        let EstimateRows { middles, numbers, certainties, .. } = &self.estimates;
        let found = middles.len();
        numbers.iter().any(|&number| number > 23)
            || numbers.len() != found
            || certainties.len() != found
            || self.room.iter().any(|&rows| rows < found.max(1))
    }
}

/// The oracle's majority; 0 where there are no numbers.
fn their_majority(numbers: Vec<u8>) -> u8 {
    if numbers.is_empty() {
        return 0;
    }
    let keys: Vec<_> = numbers.iter().map(|&number| key_from_index(number.into())).collect();
    key_number(majority_key(&keys))
}

fn ours(lent: Lent) -> (usize, SegmentRows) {
    let mut rows = untouched_segments(lent.room);
    (cut(lent.cutting, &lent.estimates, &mut rows), rows)
}

fn theirs(lent: Lent) -> (usize, SegmentRows) {
    let mut rows = untouched_segments(lent.room);
    if lent.refused() {
        return (0, rows);
    }
    let (cutting, estimates) = (lent.cutting, as_theirs(&lent.estimates));
    let left = segments_of(cutting, cutting.minimum as f32, &estimates);
    put_joined(&groups(cutting, &estimates), cutting.minimum, &left, &mut rows);
    (left.len(), rows)
}

fn lent(dice: &mut Dice) -> Lent {
    let (threshold, minimum) = (dice.one_of(&THRESHOLDS), dice.one_of(&MINIMA));
    let estimates = estimates(dice, threshold);
    let duration = estimates.middles.last().unwrap_or(&0.0) + dice.one_of(&ENDINGS);
    let rows = estimates.middles.len().max(1);
    let room = if dice.one_in(2) { [rows; 5] } else { [rows; 5].map(|rows| rows + dice.below(4)) };
    let (key, confidence) = (dice.key(), dice.unit());
    Lent {
        cutting: Cutting { threshold, minimum: minimum.into(), duration, key, confidence },
        estimates,
        room,
    }
}

/// Something about the lists that is refused.
fn spoil(dice: &mut Dice, mut lent: Lent) -> Lent {
    let rows = lent.estimates.middles.len().max(1);
    match dice.below(6) {
        0 => lent.estimates.middles.push(99.0),
        1 => lent.estimates.numbers.push(0),
        2 => drop(lent.estimates.certainties.pop()),
        3 => lent.room[dice.below(5)] = rows - 1,
        4 => lent.room[dice.below(5)] = dice.below(rows),
        _ => {
            let place = dice.below(rows);
            let number = dice.one_of(&[24, 25, 36, 128, 255]);
            lent.estimates.numbers.get_mut(place).into_iter().for_each(|key| *key = number);
        }
    }
    lent
}

fn lists<A>(seed: u64, stream: u64, make: impl Fn(&mut Dice) -> A) -> impl Iterator<Item = A> {
    let mut dice = Dice::new(seed, stream);
    std::iter::repeat_with(move || make(&mut dice))
}

fn refused(dice: &mut Dice) -> Lent {
    let whole = lent(dice);
    spoil(dice, whole)
}

pub fn compare(groups: &mut Groups) {
    let seed = groups.seed;
    let keys = lists(seed, STREAM, key_numbers).take(KEY_LISTS).chain([vec![]]);
    let whole = || lists(seed, STREAM + 1, lent).take(ESTIMATE_LISTS);
    let spoilt = lists(seed, STREAM + 2, refused).filter(Lent::refused).take(REFUSED);
    groups.group("majority keys", keys, |numbers| majority(&numbers), their_majority);
    groups.group("segments of estimates", whole(), ours, theirs);
    groups.group("segments of estimates, refused", spoilt, ours, theirs);
    let in_all = |lent: Lent| {
        let (segments, rows) = ours(lent);
        windows_in_all(&rows, segments)
    };
    let estimates = |lent: Lent| lent.estimates.middles.len() as u64;
    groups.group("segments of estimates, windows behind them in all", whole(), in_all, estimates);
}
