//! What tests tell of: the analysis of a brief track, changed, and totals of cards.
use ulyptesh::calls::{SUMMARY_CARDS, SUMMARY_NUMBERS, SUMMARY_WITHOUT_KEY};
use ulyptesh::{Analysis, Analyzer, CardSet, SetTotals};

/// Two seconds on A, in one segment and without a window, changed.
pub fn told_with(change: impl FnOnce(&mut Analysis)) -> Analysis {
    let samples: Vec<f32> = (0..16_000).map(|at| (at as f32 * 0.345_575_2).sin()).collect();
    let mut analyzer = Analyzer::for_rate(8_000).expect("a rate that is taken");
    let mut told = analyzer.analyse(&samples).expect("a track that is not refused");
    change(&mut told);
    told
}

/// Totals with milliseconds for some keys by number, and so many cards, of which so many have no key.
pub fn totals_of(keys: &[(usize, u64)], cards: u64, without_key: u64) -> SetTotals {
    let mut summary = [0; SUMMARY_NUMBERS];
    keys.iter().for_each(|&(key, ms)| summary[key] = ms);
    (summary[SUMMARY_CARDS], summary[SUMMARY_WITHOUT_KEY]) = (cards, without_key);
    CardSet::from_parts([], summary).totals()
}
