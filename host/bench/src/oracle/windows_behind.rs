//! How many windows stand behind each segment, by the request's words: a group has its own length, and joining adds the
//! two. The Rust has no such count, so its groups are joined here once more, and what is left has to be its segments.
use super::key_lime::expose::{Estimate, key_from_index, segments_of_estimates};
use super::key_lime::{KeyConfig, KeySegment};
use crate::probe::segments::Cutting;
use std::iter;

/// A segment with the number of estimates that it rests on.
#[derive(Debug, Clone, Copy)]
pub struct Counted {
    pub segment: KeySegment,
    pub windows: u32,
}

/// How the oracle cuts a track so long; key and confidence are the whole track's.
pub fn cutting_by(config: &KeyConfig, duration: f64, key: u8, confidence: f32) -> Cutting {
    let minimum = config.minimum_segment_seconds.into();
    Cutting { threshold: config.segment_confidence_threshold, minimum, duration, key, confidence }
}

/// The oracle's segments of these estimates, with segments shorter than the minimum joined.
pub fn segments_of(cutting: Cutting, minimum: f32, estimates: &[Estimate]) -> Vec<KeySegment> {
    let config = KeyConfig {
        segment_confidence_threshold: cutting.threshold,
        minimum_segment_seconds: minimum,
        ..KeyConfig::default()
    };
    let key = key_from_index(cutting.key.into());
    segments_of_estimates(estimates, cutting.duration, key, cutting.confidence, config)
}

/// Equal bit for bit; every NaN equals every other.
fn same(one: f64, other: f64) -> bool {
    one.to_bits() == other.to_bits() || (one.is_nan() && other.is_nan())
}

fn same_times(one: &KeySegment, start: f64, end: f64) -> bool {
    same(one.start_seconds, start) && same(one.end_seconds, end)
}

fn same_segment(one: &KeySegment, other: &KeySegment) -> bool {
    same_times(one, other.start_seconds, other.end_seconds)
        && one.key == other.key
        && same(one.confidence.into(), other.confidence.into())
}

/// The estimates by groups: one starts a group where its key is not that of the estimate before it, and its confidence
/// at or above the threshold. Without estimates there is one group, of none.
fn grouped(threshold: f32, estimates: &[Estimate]) -> Vec<&[Estimate]> {
    let splits = |(_, before, _): &Estimate, (_, key, confidence): &Estimate| {
        key != before && *confidence >= threshold
    };
    let groups = estimates.chunk_by(|before, next| !splits(before, next));
    if estimates.is_empty() { vec![estimates] } else { groups.collect() }
}

/// Halfway between the middles on either side.
fn border(before: &[Estimate], behind: &[Estimate]) -> f64 {
    f64::midpoint(before[before.len() - 1].0, behind[0].0)
}

/// The oracle's groups, each with its own length; it has to have as many as there are here, with the same borders.
pub fn groups(cutting: Cutting, estimates: &[Estimate]) -> Vec<Counted> {
    let groups = grouped(cutting.threshold, estimates);
    let between = groups.windows(2).map(|pair| border(pair[0], pair[1]));
    let borders: Vec<f64> = iter::once(0.0).chain(between).chain([cutting.duration]).collect();
    // none is shorter than minus infinity, so none is joined
    let theirs = segments_of(cutting, f32::NEG_INFINITY, estimates);
    assert_eq!(theirs.len(), groups.len(), "groups of {estimates:?} by {cutting:?}");
    let mut ends = theirs.iter().zip(borders.windows(2));
    assert!(
        ends.all(|(one, at)| same_times(one, at[0], at[1])),
        "{borders:?} are not the borders of {theirs:?}"
    );
    let counted =
        |(segment, group): (KeySegment, &[Estimate])| Counted { segment, windows: group.len() as u32 };
    theirs.into_iter().zip(groups).map(counted).collect()
}

fn length(counted: &Counted) -> f64 {
    counted.segment.end_seconds - counted.segment.start_seconds
}

/// The first that is shorter than the minimum, while several remain.
fn first_short(segments: &[Counted], minimum: f64) -> Option<usize> {
    segments.iter().position(|one| length(one) < minimum).filter(|_| segments.len() > 1)
}

/// The place of the earlier of the two that are joined: the first joins the second, the last the one before, others the
/// longer neighbour, the earlier on equal lengths.
fn earlier_of_two(segments: &[Counted], short: usize) -> usize {
    let joins_before = match short {
        0 => false,
        _ if short + 1 == segments.len() => true,
        _ => length(&segments[short - 1]) >= length(&segments[short + 1]),
    };
    if joins_before { short - 1 } else { short }
}

/// The time and the windows of both, with key and confidence of the earlier.
fn join(earlier: Counted, later: Counted) -> Counted {
    let (first, second) = (earlier.segment, later.segment);
    let segment = KeySegment {
        start_seconds: second.start_seconds.min(first.start_seconds),
        end_seconds: second.end_seconds.max(first.end_seconds),
        ..first
    };
    Counted { segment, windows: earlier.windows + later.windows }
}

/// What is left of these segments where those shorter than the minimum are joined, afresh each time; `theirs` is what
/// the oracle has left, and the same but for the windows.
pub fn joined(segments: &[Counted], minimum: f64, theirs: &[KeySegment]) -> Vec<Counted> {
    let mut left = segments.to_vec();
    while let Some(short) = first_short(&left, minimum) {
        let earlier = earlier_of_two(&left, short);
        let later = left.remove(earlier + 1);
        left[earlier] = join(left[earlier], later);
    }
    let as_theirs = left.iter().zip(theirs).all(|(one, other)| same_segment(&one.segment, other));
    assert!(as_theirs && left.len() == theirs.len(), "{left:?}, joined to {minimum} s, are not {theirs:?}");
    left
}
