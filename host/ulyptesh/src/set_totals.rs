//! What the cards of a set add up to.
use crate::calls::{KEYS, SUMMARY_CARDS, SUMMARY_WITHOUT_KEY};
use crate::keys::Key;
use std::cmp::Reverse;
use std::ops::Add;

/// How long each key sounds on all cards of a set, and how many cards there are. Totals of several sets can be added.
#[non_exhaustive]
#[derive(Debug, Clone, Copy, Default, PartialEq, Eq)]
pub struct SetTotals {
    milliseconds: [u64; KEYS],
    /// How many cards there are, equal ones counted each.
    pub cards: u64,
    /// How many of them have no key.
    pub without_key: u64,
}

impl SetTotals {
    /// What a summary says; a number that is not there is 0.
    pub(crate) fn of(summary: &[u64]) -> Self {
        let number = |at: usize| summary.get(at).copied().unwrap_or_default();
        Self {
            milliseconds: std::array::from_fn(number),
            cards: number(SUMMARY_CARDS),
            without_key: number(SUMMARY_WITHOUT_KEY),
        }
    }

    /// The milliseconds of this key's segments on all cards.
    pub fn key_ms(&self, key: Key) -> u64 {
        self.milliseconds[usize::from(key.number())]
    }

    /// The milliseconds of all segments.
    pub fn total_ms(&self) -> u64 {
        self.milliseconds.iter().fold(0, |sum, &ms| sum.saturating_add(ms))
    }

    /// This key's part of all milliseconds, from 0 to 1; none where there are no milliseconds.
    pub fn share(&self, key: Key) -> Option<f64> {
        let total = self.total_ms();
        (total > 0).then(|| self.key_ms(key) as f64 / total as f64)
    }

    /// All keys with their milliseconds, the largest total first and equal ones by number.
    pub fn ranked(&self) -> [(Key, u64); KEYS] {
        let mut ranked = Key::ALL.map(|key| (key, self.key_ms(key)));
        ranked.sort_by_key(|&(key, ms)| (Reverse(ms), key));
        ranked
    }
}

/// Those of two sets together.
impl Add for SetTotals {
    type Output = Self;

    fn add(self, other: Self) -> Self {
        let sum = |at: usize| self.milliseconds[at].saturating_add(other.milliseconds[at]);
        Self {
            milliseconds: std::array::from_fn(sum),
            cards: self.cards.saturating_add(other.cards),
            without_key: self.without_key.saturating_add(other.without_key),
        }
    }
}

#[cfg(test)]
mod tests {
    use super::*;
    use crate::calls::SUMMARY_NUMBERS;

    /// A summary in which each number is another one.
    fn summary() -> [u64; SUMMARY_NUMBERS] {
        std::array::from_fn(|at| 1_000 + at as u64)
    }

    #[test]
    fn each_number_of_a_summary_has_its_meaning() {
        let told = SetTotals::of(&summary());
        for key in Key::ALL {
            assert_eq!(told.key_ms(key), 1_000 + u64::from(key.number()));
        }
        assert_eq!((told.cards, told.without_key), (1_024, 1_025));
        assert_eq!(told.total_ms(), (1_000..1_024).sum());
    }

    #[test]
    fn numbers_that_are_not_there_are_0() {
        assert_eq!(SetTotals::of(&[]), SetTotals::default());
        let told = SetTotals::of(&summary()[..25]);
        assert_eq!((told.cards, told.without_key), (1_024, 0));
    }

    #[test]
    fn the_largest_total_comes_first_and_equal_ones_by_number() {
        let mut numbers = [7; SUMMARY_NUMBERS];
        (numbers[3], numbers[20], numbers[12]) = (9, 8, 9);
        let order = SetTotals::of(&numbers).ranked().map(|(key, ms)| (key.number(), ms));
        assert_eq!(order[..5], [(3, 9), (12, 9), (20, 8), (0, 7), (1, 7)]);
        assert!(order[3..].is_sorted());
    }

    #[test]
    fn shares_are_parts_of_all_milliseconds() {
        let mut numbers = [0; SUMMARY_NUMBERS];
        assert_eq!(SetTotals::of(&numbers).share(Key::ALL[0]), None);
        (numbers[0], numbers[23]) = (3, 1);
        let told = SetTotals::of(&numbers);
        assert_eq!([0, 1, 23].map(|at| told.share(Key::ALL[at])), [Some(0.75), Some(0.0), Some(0.25)]);
    }

    #[test]
    fn totals_are_added_number_by_number() {
        let one = SetTotals::of(&summary());
        assert_eq!(one + SetTotals::default(), one);
        assert_eq!(one + one, SetTotals::of(&summary().map(|number| 2 * number)));
        let most = SetTotals::of(&[u64::MAX; SUMMARY_NUMBERS]);
        assert_eq!((most + one, most.total_ms()), (most, u64::MAX));
    }
}
