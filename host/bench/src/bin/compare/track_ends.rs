//! Where the card of a track ends: never after the track's samples over its rate, in whole numbers, on tracks that end
//! a hair below a whole millisecond at many rates. A group without inputs fails, so each kind occurs.
use crate::analyses::Told;
use crate::analysis_calls::Asked;
use crate::analysis_left;
use crate::card_model::LAYOUT_1;
use crate::card_rounds;
use crate::frame_calls::settings;
use crate::groups::{Groups, compared_exactly};
use crate::packed::{LONGEST, exact_milliseconds};
use crate::track_length::Length;
use bench::inputs::dice::Dice;
use bench::inputs::tracks::{KINDS, Maker};
use std::collections::BTreeSet;
use std::sync::Arc;
use ulyptesh::Settings;
use ulyptesh::calls::{NO_KEY, Sheet};

/// Streams of the seed from here on: one to a rate for cards alone, and one for each analysis.
const STREAM: u64 = 500_000;
const ANALYSED_STREAM: u64 = 1_500_000;

/// All rates up to this one, and those that are usual above it.
const EVERY_RATE_TO: u32 = 2_000;
#[rustfmt::skip]
const USUAL_RATES: [u32; 14] = [
    8_000, 11_025, 12_000, 16_000, 22_050, 24_000, 32_000, 44_100, 48_000, 64_000, 88_200, 96_000, 176_400, 192_000,
];

/// So many milliseconds of each kind, the first ones, any, those about the last of layout 1 and the last ones, and so
/// many places from which a track a hair below one is looked for.
const MILLISECONDS: u64 = 30;
const PLACES: usize = 12;

/// So many analyses at each rate.
const ANALYSES: usize = 3;

/// From this rate on a sheet has rows of its own. Below it few notes or none are low enough, and a sheet has the
/// Goertzel rows of this rate, for notes 0 to 13.
const LOWEST_WITH_OWN_ROWS: u32 = 40;

/// A track that was analysed: whether it has a key, its segments' ends in seconds, those that are read on its card, and
/// whether none of these lies after the audio, by either engine.
#[derive(Debug, Clone, PartialEq)]
struct Analysed {
    length: Length,
    has_key: bool,
    times: Vec<f64>,
    ends: Vec<u32>,
    inside: bool,
}

compared_exactly!(Analysed);

fn rates() -> impl Iterator<Item = u32> {
    (1..=EVERY_RATE_TO).chain(USUAL_RATES)
}

/// The most samples that end before so many milliseconds, which are above 0.
fn last_before(rate: u32, milliseconds: u64) -> u64 {
    (milliseconds * u64::from(rate) - 1) / 1000
}

/// Of a second's lengths from these samples on, the last of those that end furthest past a millisecond; where the rate
/// divides 1,000 all end at one.
fn hair_below(rate: u32, samples: u64) -> u64 {
    let rate = u64::from(rate);
    let past = |samples: &u64| 1000 * samples % rate;
    (samples..samples + rate).max_by_key(past).expect("a rate above 0")
}

/// Tracks that end just before a millisecond, and those of one and two samples more.
fn lengths(seed: u64, rate: u32) -> impl Iterator<Item = Length> {
    let (mut dice, last) = (Dice::new(seed, STREAM + u64::from(rate)), 1000 * LONGEST);
    let any: Vec<u64> = (0..MILLISECONDS).map(|_| 1 + dice.below(last as usize) as u64).collect();
    let about = LAYOUT_1.last_end - MILLISECONDS / 2..LAYOUT_1.last_end + MILLISECONDS / 2;
    let milliseconds = (1..=MILLISECONDS).chain(any).chain(about).chain(last - MILLISECONDS + 1..=last);
    let longest = (LONGEST * u64::from(rate)) as usize;
    let hairs: Vec<u64> = (0..PLACES).map(|_| hair_below(rate, dice.below(longest) as u64)).collect();
    let before = milliseconds.map(|n| last_before(rate, n)).chain(hairs);
    let around: BTreeSet<u64> = before.flat_map(|samples| [samples, samples + 1, samples + 2]).collect();
    around.into_iter().map(move |samples| Length { rate, samples }).filter(|length| length.is_allowed())
}

/// One segment from 0 to the duration.
fn whole_track(length: Length) -> Told {
    Told {
        key: 21,
        dsp_key: 21,
        alternate: NO_KEY,
        coverage: 0.0,
        confidence: 0.5,
        starts: vec![0.0],
        ends: vec![length.seconds()],
        keys: vec![21],
        confidences: vec![0.5],
        lent: 0,
    }
}

/// The end that is read on the track's card, and whether it is not after the audio and at most a millisecond before its
/// end.
fn end_on_card(length: &Length) -> (Vec<u32>, bool) {
    let ends = card_rounds::ends(&card_rounds::ours(&whole_track(*length))).to_vec();
    let near = ends.iter().all(|&end| length.reaches(end.into()) && length.ends_near(end.into()));
    (ends, near)
}

fn end_wanted(length: &Length) -> (Vec<u32>, bool) {
    (vec![exact_milliseconds(length.seconds()) as u32], true)
}

/// Those that end before their nearest millisecond, and those that end at or behind it.
fn by_end<A>(all: impl Iterator<Item = A>, length: impl Fn(&A) -> Length) -> [(&'static str, Vec<A>); 2] {
    let (before, behind) = all.partition(|one| length(one).ends_before_nearest());
    [("before", before), ("at or behind", behind)]
}

/// Cards of durations alone.
fn compare_cards(groups: &mut Groups) {
    let seed = groups.seed;
    let all = rates().flat_map(|rate| lengths(seed, rate));
    for (place, lengths) in by_end(all, |length| *length) {
        let name = format!("cards of tracks that end {place} their nearest millisecond");
        groups.shared_group(&name, lengths.len(), |nth| lengths[nth], end_on_card, end_wanted);
    }
}

/// Two octaves below the highest note that has a row.
fn notes(rate: u32) -> (u8, u8) {
    let highest = 69.0 + 12.0 * (0.45 * f64::from(rate.max(LOWEST_WITH_OWN_ROWS)) / 440.0).log2();
    let highest = highest.clamp(0.0, 95.0) as u8;
    (highest.saturating_sub(23), highest)
}

/// A sheet for that rate, with its own rows or the Goertzel rows of a higher one.
fn sheet(settings: &Settings) -> Sheet {
    if settings.rate >= LOWEST_WITH_OWN_ROWS {
        return Sheet::for_call(settings);
    }
    let higher = Sheet::for_call(&settings.with(|settings| settings.rate = LOWEST_WITH_OWN_ROWS));
    Sheet {
        head: settings.head(),
        constant_q_lengths: vec![],
        constant_q_coefficients: vec![],
        constant_q_windows: vec![],
        ..higher
    }
}

/// Some seconds, or 120 samples where these are longer, with a window every half second, or every twelfth of the track
/// where that is longer.
fn call(seed: u64, rate: u32, nth: usize) -> Asked {
    let mut dice = Dice::new(seed, ANALYSED_STREAM + (ANALYSES * rate as usize + nth) as u64);
    let seconds = if rate > EVERY_RATE_TO { 1.2 + dice.unit() } else { 2.5 + 3.0 * dice.unit() };
    let least = (seconds * rate as f32) as u64;
    let samples = hair_below(rate, least.max(120)) as usize;
    let seconds = samples as f32 / rate as f32;
    let settings = settings(rate, notes(rate), 32, 1 + samples / 60).with(|settings| {
        settings.local_window_seconds = seconds / 6.0;
        settings.local_hop_seconds = (seconds / 12.0).max(0.5);
        settings.segment_confidence_threshold = dice.one_of(&[0.35, 0.02, 0.0]);
        settings.minimum_segment_seconds = dice.one_of(&[0.0, 0.0, 1.0, 12.0]);
    });
    let kind = &KINDS[dice.below(KINDS.len())];
    let track = (kind.make)(&mut Maker { dice, rate }, samples);
    let asked = Asked::new(kind.name, settings, &Arc::new(sheet(&settings)), track);
    assert_eq!(asked.refusal(), None);
    asked
}

/// What is told of a track. None is refused but one of which a frame is not finite.
fn analysed(asked: &Asked) -> Analysed {
    let left = analysis_left::ours(asked);
    assert!(matches!(left.answer.refusal, 0 | 9), "refused with {}", left.answer.refusal);
    let (length, has_key) = (asked.length(), left.answer.key != NO_KEY);
    let (times, ends) = (left.times().to_vec(), left.ends().to_vec());
    Analysed { length, has_key, times, ends, inside: left.inside && left.other.is_none() }
}

/// The ends on the card of an analysis, and whether none is after the audio.
fn ends(told: Analysed) -> (Vec<u32>, bool) {
    (told.ends, told.inside)
}

/// Those of the segments' own ends, and the last at the end of the audio.
fn ends_wanted(told: Analysed) -> (Vec<u32>, bool) {
    let inner = told.times.split_last().map_or(&[][..], |(_, inner)| inner);
    let all = inner.iter().copied().chain([told.length.seconds()]);
    (all.map(|time| exact_milliseconds(time) as u32).collect(), true)
}

/// Cards of whole analyses that report a key; some tracks are too faint, and some not finite. Where fewer than half of
/// all report one, none counts.
fn compare_analyses(groups: &mut Groups) {
    let seed = groups.seed;
    let calls = rates().flat_map(|rate| (0..ANALYSES).map(move |nth| call(seed, rate, nth)));
    let all: Vec<Analysed> = calls.map(|asked| analysed(&asked)).collect();
    let keyed: Vec<Analysed> = all.iter().filter(|told| told.has_key).cloned().collect();
    let keyed = if 2 * keyed.len() < all.len() { vec![] } else { keyed };
    let several = keyed.iter().filter(|told| told.times.len() > 1).cloned();
    groups.group("cards of analyses, several segments", several, ends, ends_wanted);
    // at a rate that divides 1,000 they end at a whole millisecond
    for (place, told) in by_end(keyed.into_iter(), |told| told.length) {
        let name = format!("cards of analyses that end {place} their nearest millisecond");
        groups.group(&name, told.into_iter(), ends, ends_wanted);
    }
}

pub fn compare(groups: &mut Groups) {
    compare_cards(groups);
    compare_analyses(groups);
}
