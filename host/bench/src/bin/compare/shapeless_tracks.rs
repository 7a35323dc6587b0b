//! Whole tracks without shape, beside the oracle's `analyze`: clicks, which all notes of one octave hear alike; a click
//! that no note hears, where a frame begins; and tracks without a key. With the usual notes clicks leave a shape, as
//! some of them have more harmonics among the others, so there only windows are without one.
use crate::analysis_calls::Asked;
use crate::analysis_left::{Left, ours};
use crate::frame_calls::settings;
use crate::groups::Groups;
use crate::their_analyses::theirs;
use crate::track_edges::sheet_of;
use bench::inputs::dice::Dice;
use bench::inputs::tracks::{Maker, kind, put_clicks, put_unheard_click};
use ulyptesh::Settings;
use ulyptesh::calls::NO_KEY;

/// Streams of the seed from here on are these tracks', one for each.
const STREAM: u64 = 103_000;

/// So many tracks that begin with clicks.
const CLICKS: usize = 300;

const FRAME_SIZE: usize = 1_024;

/// An octave each, with its rate.
const OCTAVES: [(u32, u8); 4] = [(8_000, 48), (8_000, 60), (11_025, 72), (44_100, 84)];

/// From hardly loud to as loud as can be.
const LOUDNESSES: [f32; 5] = [0.005, 0.01, 0.02, 0.1, 1.0];

/// One octave, frames that overlap by half, and a window every half second.
fn one_octave(rate: u32, lowest: u8) -> Settings {
    settings(rate, (lowest, lowest + 11), FRAME_SIZE, FRAME_SIZE / 2).with(|settings| {
        settings.local_window_seconds = 1.0;
        settings.local_hop_seconds = 0.5;
        settings.segment_confidence_threshold = 0.0;
        settings.minimum_segment_seconds = 0.0;
    })
}

/// Clicks, in two tracks of three with chords behind them. To some calls a row or two more are lent than they ask for.
fn clicks(seed: u64) -> Vec<Asked> {
    let shapes = OCTAVES.map(|(rate, lowest)| {
        let settings = one_octave(rate, lowest);
        (settings, sheet_of(&settings))
    });
    let track = |nth: usize| {
        let mut dice = Dice::new(seed, STREAM + nth as u64);
        let (settings, sheet) = &shapes[nth % shapes.len()];
        let length = 3 * settings.rate as usize + dice.below(4 * settings.rate as usize);
        let border = if nth.is_multiple_of(3) { length } else { dice.below(length) };
        let (first, loudness) = (dice.below(FRAME_SIZE), dice.one_of(&LOUDNESSES));
        let mut maker = Maker { dice, rate: settings.rate };
        let mut samples = (kind("chord progression").make)(&mut maker, length);
        put_clicks(&mut samples[..border], FRAME_SIZE, first, loudness);
        let mut asked = Asked::new("clicks", *settings, sheet, samples);
        asked.lent_mut().for_each(|lent| *lent += nth / 3 % 3);
        asked
    };
    (0..CLICKS).map(track).collect()
}

/// With the usual settings: a click that no note hears, then silence for longer than a local window, then chords.
fn click_before_silence(seed: u64) -> Vec<Asked> {
    let track = |(rate, stream): (u32, u64)| {
        let settings = Settings::for_rate(rate);
        let mut maker = Maker { dice: Dice::new(seed, stream), rate };
        let (silence, length) = (13 * rate as usize, 30 * rate as usize);
        let mut samples = (kind("chord progression").make)(&mut maker, length);
        put_unheard_click(&mut samples[..silence]);
        Asked::new("a click before silence", settings, &sheet_of(&settings), samples)
    };
    [8_000, 11_025, 44_100, 48_000].into_iter().zip(STREAM + CLICKS as u64..).map(track).collect()
}

/// No key: silence, no samples, and frames that are loud where no note hears them, so that their chromas are zeros.
fn without_key() -> Vec<Asked> {
    let settings = settings(8_000, (60, 71), 64, 64);
    let sheet = sheet_of(&settings);
    let mut unheard = vec![0.0; 6_400];
    unheard.iter_mut().step_by(64).for_each(|x| *x = 0.01);
    let asked = |samples| Asked::new("no key", settings, &sheet, samples);
    [vec![0.0; 6_400], vec![], unheard].map(asked).into()
}

/// What the oracle says of the tracks, and of all their windows.
fn seen(calls: &[Asked]) -> (Vec<bool>, Vec<bool>) {
    let left: Vec<Left> = calls.iter().map(theirs).collect();
    let windows = left.iter().flat_map(Left::shapeless).map(|&shapeless| shapeless == 1).collect();
    (left.iter().map(|left| left.answer.shapeless == 1).collect(), windows)
}

fn compare_calls(groups: &mut Groups, name: &str, calls: Vec<Asked>) {
    let name = format!("analyses, {name}");
    groups.group(&name, calls.into_iter(), |asked| ours(&asked), |asked| theirs(&asked));
}

pub fn compare(groups: &mut Groups) {
    let (clicks, before_silence, without_key) =
        (clicks(groups.seed), click_before_silence(groups.seed), without_key());
    let (tracks, windows) = seen(&clicks);
    let both = |told: &[bool]| told.contains(&true) && told.contains(&false);
    assert!(both(&tracks) && both(&windows), "some tracks and windows have no shape, and some have one");
    let (tracks, windows) = seen(&before_silence);
    assert!(!tracks.contains(&true) && both(&windows), "only windows have no shape");
    let has_no_key = |asked: &Asked| theirs(asked).answer.key == NO_KEY;
    assert!(without_key.iter().all(has_no_key), "no track has a key");
    compare_calls(groups, "clicks on one octave of notes", clicks);
    compare_calls(groups, "a click before silence", before_silence);
    compare_calls(groups, "no key, so not without shape", without_key);
}
