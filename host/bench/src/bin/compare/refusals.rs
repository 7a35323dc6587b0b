//! What the request's words refuse or answer at once: each check of its table alone and with each later one, numbers
//! that are no engine's, and chromas and rooms of wrong lengths. Nothing that is lent changes.
use crate::analysis_calls::Asked;
use crate::analysis_left;
use crate::chroma_calls::{MOST_PLACES, our_scores, untouched};
use crate::frame_calls::{self, BREACHES, settings, whole};
use crate::groups::Groups;
use bench::inputs::random::patterns;
use std::sync::Arc;
use ulyptesh::Engine;
use ulyptesh::calls::{self, KEYS, KeyResult, NO_KEY, PITCH_CLASSES, ScoresResult, Sheet, WRONG_LENGTH};

/// So many numbers are lent at most; a chroma has fewer.
const MOST_NUMBERS: usize = 14;

/// The stream of the seed for any numbers of no engine, and how many are drawn.
const STREAM: u64 = 110_000;
const ANY_NUMBERS: usize = 2_000;

/// What the library answers where a call asks for no engine.
const NO_ENGINE: u32 = 13;

/// Something that is done to a call.
type Breaks = Box<dyn Fn(&mut Asked)>;

/// Each number alone and with each that follows it.
fn pairs(count: usize) -> impl Iterator<Item = (usize, usize)> {
    (0..count).flat_map(move |one| (one..count).map(move |other| (one, other)))
}

/// Each check alone, and with each later one, on a call that would pass; and that call.
pub fn of_frames() -> impl Iterator<Item = frame_calls::Asked> {
    let whole = whole();
    let broken = {
        let whole = whole.clone();
        pairs(BREACHES.len()).map(move |(one, other)| {
            let mut asked = frame_calls::Asked { what: BREACHES[one].what, ..whole.clone() };
            (BREACHES[other].breaks)(&mut asked);
            (BREACHES[one].breaks)(&mut asked);
            asked
        })
    };
    std::iter::once(whole).chain(broken)
}

/// An analysis that passes.
fn whole_analysis() -> Asked {
    let whole = Asked { work: 7, rows: [1, 2, 1, 4, 1, 3, 1, 1, 2], call: whole() };
    assert_eq!(whole.refusal(), None);
    whole
}

/// The same of a whole analysis, which has more checks.
pub fn of_analyses() -> Vec<Asked> {
    let whole = whole_analysis();
    let of_frames =
        BREACHES.iter().map(|breach| -> Breaks { Box::new(|asked| (breach.breaks)(&mut asked.call)) });
    let hop: Breaks = Box::new(|asked| asked.call.settings.local_hop_seconds = 0.5f32.next_down());
    let work: Breaks = Box::new(|asked| asked.work = 6);
    let rows = (0..9).map(|list| -> Breaks { Box::new(move |asked| asked.rows[list] = 0) });
    let breaches: Vec<Breaks> = of_frames.chain([hop, work]).chain(rows).collect();
    let broken = pairs(breaches.len()).map(|(one, other)| {
        let mut asked = whole.clone();
        breaches[other](&mut asked);
        breaches[one](&mut asked);
        asked
    });
    broken.chain([whole.clone()]).collect()
}

/// The list at this place has a row too few, none, or one more.
fn other_room(place: usize) -> [Breaks; 3] {
    let change = move |how: fn(usize) -> usize| -> Breaks {
        Box::new(move |asked| asked.lent_mut().skip(place).take(1).for_each(|lent| *lent = how(*lent)))
    };
    [change(|lent| lent - 1), change(|_| 0), change(|lent| lent + 1)]
}

/// A call with several windows, with each list a row shorter, empty, and a row longer.
pub fn of_rooms() -> Vec<Asked> {
    let settings = settings(2_000, (48, 72), 128, 200).with(|settings| {
        settings.local_window_seconds = 1.0;
        settings.local_hop_seconds = 0.5;
        settings.minimum_segment_seconds = 0.0;
    });
    let samples = (0..10_000).map(|place| (0.6 * place as f32).sin()).collect();
    let whole = Asked::new("room", settings, &Arc::new(Sheet::for_call(&settings)), samples);
    assert_eq!((whole.refusal(), whole.rows[0]), (None, 9));
    let changed = |breaks: Breaks| {
        let mut asked = whole.clone();
        breaks(&mut asked);
        asked
    };
    (0..13).flat_map(other_room).map(changed).chain([whole.clone()]).collect()
}

fn numbers() -> [f32; MOST_NUMBERS] {
    std::array::from_fn(|place| 0.25 + place as f32)
}

/// Every count of numbers with every count of places, but for those that are taken.
fn wrong_lengths() -> impl Iterator<Item = (usize, usize)> {
    let every = (0..=MOST_NUMBERS).flat_map(|given| (0..=MOST_PLACES).map(move |lent| (given, lent)));
    every.filter(|&(given, lent)| given != PITCH_CLASSES || lent < KEYS)
}

fn number(refusal: Option<u32>) -> u32 {
    refusal.expect("only such calls are taken")
}

fn compare_analyses(groups: &mut Groups, name: &str, mut calls: Vec<Asked>) {
    calls.retain(|asked| asked.refusal().is_some());
    let refused = |asked: &Asked| analysis_left::refused(asked, number(asked.refusal()));
    let (name, nth) = (format!("analyses, {name}"), |nth: usize| calls[nth].clone());
    groups.shared_group(&name, calls.len(), nth, analysis_left::ours, refused);
}

/// Numbers that no engine has: the first ones, those about powers of two, and any.
fn no_engines(seed: u64) -> impl Iterator<Item = u32> {
    let about_powers = (8..32).flat_map(|power| [(1 << power) - 1, 1 << power, (1 << power) + 1]);
    let any = patterns(seed, STREAM).take(ANY_NUMBERS).map(|pattern| pattern as u32);
    (2..300).chain(about_powers).chain(any).chain([u32::MAX]).filter(|&number| number > 1)
}

/// Both calls, which are answered but for the engine.
fn compare_engines(groups: &mut Groups) {
    let whole = whole_analysis();
    let by = |number| whole.clone().by(Engine(number));
    let ours = |number| (frame_calls::ours(by(number).call), analysis_left::ours(&by(number)));
    let refused = |number| {
        let asked = by(number);
        (frame_calls::refused(&asked.call, NO_ENGINE), analysis_left::refused(&asked, NO_ENGINE))
    };
    groups.group("frames and analyses, no such engine", no_engines(groups.seed), ours, refused);
}

fn compare_lengths(groups: &mut Groups) {
    let scores = |(given, lent): (usize, usize)| our_scores(&numbers()[..given], lent);
    let no_scores = |_| (ScoresResult { refusal: WRONG_LENGTH, shapeless: 0 }, untouched());
    groups.group("scores of wrong lengths", wrong_lengths(), scores, no_scores);
    let no_chromas = (0..=MOST_NUMBERS).filter(|&given| given != PITCH_CLASSES);
    let refused = KeyResult {
        refusal: WRONG_LENGTH,
        key: NO_KEY,
        best: 0.0,
        second: 0.0,
        confidence: 0.0,
        shapeless: 0,
    };
    groups.group("key of wrong lengths", no_chromas, |given| calls::key(&numbers()[..given]), |_| refused);
}

pub fn compare(groups: &mut Groups) {
    let frames = of_frames().filter(|asked| asked.refusal().is_some());
    groups.group("frames, each check alone and with each later one", frames, frame_calls::ours, |asked| {
        frame_calls::refused(&asked, number(asked.refusal()))
    });
    compare_analyses(groups, "each check alone and with each later one", of_analyses());
    compare_analyses(groups, "each list shorter", of_rooms());
    compare_engines(groups);
    compare_lengths(groups);
}
