//! Tracks that the tool is given: short ones of every kind, some that change their key, some that are silent, and some
//! whose chroma or whose first window has no shape.
use crate::analysis_calls::Asked;
use crate::groups::Compared;
use bench::inputs::dice::Dice;
use bench::inputs::tracks::{KINDS, Maker, clicks, kind, put_unheard_click};
use bench::oracle::tables::Tables;
use std::f64::consts::TAU;
use std::sync::Arc;
use ulyptesh::Settings;
use ulyptesh::calls::Sheet;

/// Streams of the seed from here on are these tracks', one for each.
const STREAM: u64 = 90_000;

const RATES: [u32; 2] = [44_100, 48_000];

/// One in so many is long and changes its key, and comes by standard input; another one is silent.
const LONG_EVERY: usize = 25;
pub const SILENT: usize = 5;
const LONG_SECONDS: usize = 48;

/// Of as many one begins with a click that no note hears, and one is clicks that the notes of its octave hear alike.
pub const UNHEARD_CLICK: usize = 7;
pub const CLICKS: usize = 11;
const SILENT_SECONDS: usize = 13;
const SHAPELESS_SECONDS: usize = 20;

/// One octave, and the tool's words for it.
const OCTAVE: (u8, u8) = (60, 71);
const OCTAVE_WORDS: [&str; 2] = ["--notes", "60-71"];

/// Words for the engine, in turn: the answers are the same.
const ENGINE_WORDS: [&[&str]; 3] = [&[], &["--engine", "0"], &["--engine=1"]];

/// Semitones of a major scale with their loudness: together they tell the key well enough for a new segment.
const SCALE: [(u32, f64); 7] = [(0, 1.05), (2, 0.26), (4, 0.48), (5, 0.41), (7, 0.7), (9, 0.3), (11, 0.12)];
const TONICS: [u32; 2] = [66, 63];

/// A call with the tool's settings or with those of some words, and its number.
pub struct Track {
    pub nth: usize,
    pub asked: Asked,
    pub words: Vec<&'static str>,
}

impl Compared for Track {
    fn same(&self, other: &Self) -> bool {
        self.asked.same(&other.asked)
    }

    fn shown(&self) -> String {
        format!("track {}: {}", self.nth, self.asked.shown())
    }
}

/// All tones of a scale at once, from this note upward.
fn scale(tonic: u32, place: usize, rate: u32) -> f64 {
    let tone = |(semitones, loudness): (u32, f64)| {
        let hertz = 440.0 * ((f64::from(tonic + semitones) - 69.0) / 12.0).exp2();
        loudness * (TAU * hertz * place as f64 / f64::from(rate)).sin()
    };
    SCALE.map(tone).iter().sum()
}

/// Half of the track in one key, half in another.
fn two_keys(rate: u32) -> Vec<f32> {
    let length = LONG_SECONDS * rate as usize;
    (0..length).map(|place| 0.15 * scale(TONICS[2 * place / length], place, rate) as f32).collect()
}

/// A click that no note hears, silence for longer than a local window, then chords.
fn unheard_click(dice: Dice, rate: u32) -> Vec<f32> {
    let mut maker = Maker { dice, rate };
    let mut samples = (kind("chord progression").make)(&mut maker, SHAPELESS_SECONDS * rate as usize);
    put_unheard_click(&mut samples[..SILENT_SECONDS * rate as usize]);
    samples
}

/// With the words that ask for them.
fn settings(nth: usize) -> (Settings, &'static [&'static str]) {
    let usual = Settings::for_rate(RATES[nth % 2]);
    if nth % LONG_EVERY != CLICKS {
        return (usual, &[]);
    }
    let octave = usual.with(|settings| {
        (settings.minimum_midi_note, settings.maximum_midi_note) = OCTAVE;
    });
    (octave, &OCTAVE_WORDS)
}

/// A sheet for the settings of each track.
pub fn sheets() -> Vec<Arc<Sheet>> {
    let sheet = |nth| Arc::new(Tables::new(settings(nth).0.head()).sheet);
    [0, 1, CLICKS, CLICKS + LONG_EVERY].map(sheet).into()
}

fn samples(mut dice: Dice, nth: usize, settings: &Settings) -> (&'static str, Vec<f32>) {
    let rate = settings.rate;
    let length = rate as usize + dice.below(2 * rate as usize);
    match nth % LONG_EVERY {
        0 => ("two keys", two_keys(rate)),
        SILENT => ("silence", vec![0.0; dice.below(length)]),
        UNHEARD_CLICK => ("unheard click", unheard_click(dice, rate)),
        CLICKS => ("clicks", clicks(SHAPELESS_SECONDS * rate as usize, settings.frame_size)),
        _ => {
            let kind = &KINDS[nth % KINDS.len()];
            (kind.name, (kind.make)(&mut Maker { dice, rate }, length))
        }
    }
}

pub fn track(seed: u64, nth: usize, sheets: &[Arc<Sheet>]) -> Track {
    let (settings, words) = settings(nth);
    let sheet = sheets.iter().find(|sheet| sheet.head == settings.head()).expect("a sheet for each track");
    let (what, samples) = samples(Dice::new(seed, STREAM + nth as u64), nth, &settings);
    let words = [words, ENGINE_WORDS[nth % ENGINE_WORDS.len()]].concat();
    Track { nth, asked: Asked::new(what, settings, sheet, samples), words }
}

/// A long track comes by standard input.
pub fn file_of(track: &Track) -> String {
    if track.nth.is_multiple_of(LONG_EVERY) { "-".into() } else { format!("{}.f32", track.nth) }
}
