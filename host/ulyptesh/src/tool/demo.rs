//! The names of all keys, the key of a triad, and a built-in track that changes its key.
use super::asked::STANDARD_OUTPUT;
use super::failure::{Failure, bad_usage, refused};
use super::outputs::Prepared;
use super::picture::{Picture, svg};
use super::text;
use super::words::{Known, Words, with_word};
use super::{key_of, print, say};
use std::f64::consts::TAU;
use std::path::Path;
use ulyptesh::{Analysis, Analyzer, Chroma, Key};

pub const OPTIONS: [Known; 2] = [with_word("--svg"), with_word("--track")];

/// A, C and E, with A the loudest.
const TRIAD: Chroma = [0.8, 0.0, 0.0, 0.0, 0.7, 0.0, 0.0, 0.0, 0.0, 1.0, 0.0, 0.0];

const RATE: u32 = 44_100;

/// The seconds of the whole track, and where its key changes.
const SECONDS: usize = 80;
const CHANGE: usize = 56;

/// The name that the track is shown under.
const NAME: &str = "the demo's track";

/// A key as all its tones at once: the lowest note, then semitones above it with their loudness.
type Pad<'a> = (u8, &'a [(u8, f64)]);

const C_MAJOR: Pad<'_> = (60, &[(0, 1.0), (2, 0.3), (4, 0.6), (7, 0.35), (5, 0.1)]);
const F_SHARP_MINOR: Pad<'_> = (66, &[(0, 1.0), (2, 0.3), (3, 0.6), (7, 0.5), (8, 0.35), (11, 0.2)]);

/// The loudness of the whole, how far each tone swells beyond its own, and in how many seconds.
const LOUDNESS: f64 = 0.15;
const SWELL: f64 = 0.3;
const SWELL_SECONDS: f64 = 8.0;

fn sample(place: usize) -> f32 {
    let second = place / RATE as usize;
    let (lowest, tones) = if second < CHANGE { C_MAJOR } else { F_SHARP_MINOR };
    let tone = |(nth, &(semitones, loudness)): (usize, &(u8, f64))| {
        let hertz = 440.0 * ((f64::from(lowest + semitones) - 69.0) / 12.0).exp2();
        let swell = 1.0 + SWELL * (TAU * (second + 2 * nth) as f64 / SWELL_SECONDS).sin();
        loudness * swell * (TAU * hertz * place as f64 / f64::from(RATE)).sin()
    };
    (LOUDNESS * tones.iter().enumerate().map(tone).sum::<f64>()) as f32
}

/// The card of the track, in hexadecimal.
fn card_of(told: &Analysis) -> Result<String, Failure> {
    let bytes = told.card().map_err(refused)?;
    Ok(bytes.iter().map(|byte| format!("{byte:02X}")).collect::<Vec<_>>().join(" "))
}

/// What is said.
fn lines(told: &Analysis, words: &Words) -> Result<Vec<String>, Failure> {
    let mut lines: Vec<String> = Key::ALL.iter().map(|key| format!("{:2}  {key}", key.number())).collect();
    lines.push(format!("a chroma of A, C and E is {}", key_of(&TRIAD, words)?));
    lines.extend(text::lines(NAME, told, None));
    lines.push(format!("  its card: {}", card_of(told)?));
    Ok(lines)
}

/// The samples as a file has them.
fn bytes(samples: &[f32]) -> Vec<u8> {
    samples.iter().flat_map(|x| x.to_le_bytes()).collect()
}

pub fn run(words: Words) -> Result<(), Failure> {
    if !words.plain.is_empty() {
        return Err(bad_usage("demo takes no file"));
    }
    let samples: Vec<f32> = (0..SECONDS * RATE as usize).map(sample).collect();
    let mut analyzer = Analyzer::for_rate(RATE).map_err(refused)?;
    let told = analyzer.analyse(&samples).map_err(refused)?;
    let picture = || svg(&Picture::new(NAME, &told, &analyzer)).into_bytes();
    let (mut prepared, mut printed) = (Prepared::default(), None);
    for (option, content) in [("--svg", &picture as &dyn Fn() -> Vec<u8>), ("--track", &|| bytes(&samples))] {
        match words.word(option) {
            None => {}
            Some(word) if word == STANDARD_OUTPUT && printed.is_some() => {
                return Err(bad_usage("one file can go to standard output"));
            }
            Some(word) if word == STANDARD_OUTPUT => printed = Some(content()),
            Some(word) => prepared.add(Path::new(word), &content())?,
        }
    }
    match printed {
        Some(content) => print(&content)?,
        None => say(&lines(&told, &words)?.join("\n"))?,
    }
    prepared.put()
}
