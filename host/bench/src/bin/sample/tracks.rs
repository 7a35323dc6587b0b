//! Small tracks at 160 Hz, all of 384 samples, and what a call is asked for each.
use crate::patterns::SEED;
use bench::inputs::chromas::unit;
use bench::inputs::engines::ENGINES;
use bench::inputs::random::patterns;
use bench::oracle::key_lime::KeyConfig;
use std::f32::consts::TAU;
use ulyptesh::Engine;

/// The rate of the sheet.
pub const RATE: u32 = 160;
pub const FRAME_SIZE: usize = 32;
const HOP_SIZE: usize = 48;
/// Every class of note, and two of them twice, below the oracle's guard against too high notes.
pub const NOTES: (u8, u8) = (24, 37);
pub const SAMPLES: usize = 384;

/// A track by its chords, how loud they and the noise on them are, and what is done to its samples and to its call.
struct Kind {
    what: &'static str,
    /// Key numbers of triads, each of which sounds for as long as the others.
    chords: &'static [u8],
    loud: f32,
    noise: f32,
    spoil: fn(&mut [f32]),
    ask: fn(&mut Asked),
}

const PLAIN: Kind = Kind { what: "", chords: &[], loud: 0.3, noise: 0.01, spoil: |_| {}, ask: |_| {} };

/// What a call is asked.
pub struct Asked {
    pub what: &'static str,
    pub rate: u32,
    pub config: KeyConfig,
    pub engine: Engine,
    pub samples: Vec<f32>,
}

const KINDS: [Kind; 25] = [
    Kind { what: "one triad", chords: &[0], ..PLAIN },
    Kind { what: "one minor triad", chords: &[21], ..PLAIN },
    Kind { what: "two keys", chords: &[0, 6], ..PLAIN },
    Kind { what: "no such engine", chords: &[7, 7, 7, 13, 13], ask: |a| a.engine = Engine(2), ..PLAIN },
    Kind {
        what: "two keys, no alternate asked",
        chords: &[2, 2, 8],
        ask: |a| a.config.alternate_coverage_threshold = 0.0,
        ..PLAIN
    },
    Kind {
        what: "windows without shape, then a key",
        chords: &[4],
        noise: 0.0,
        spoil: |s| {
            s[..160].fill(0.0);
            s[..160].iter_mut().step_by(HOP_SIZE).for_each(|x| *x = 1e-3);
        },
        ..PLAIN
    },
    Kind { what: "three minor keys", chords: &[12, 16, 20], noise: 0.05, ..PLAIN },
    Kind { what: "a key a window", chords: &[0, 3, 6, 9, 1], ..PLAIN },
    Kind { what: "there and back", chords: &[5, 5, 23, 23, 5], ..PLAIN },
    Kind {
        what: "a track without shape",
        noise: 0.0,
        spoil: |s| s.chunks_mut(HOP_SIZE).for_each(put_shapeless),
        ..PLAIN
    },
    Kind {
        what: "a cadence, sure windows alone",
        chords: &[9, 2, 4, 9],
        ask: |a| a.config.segment_confidence_threshold = 0.35,
        ..PLAIN
    },
    Kind {
        what: "short segments joined",
        chords: &[0, 3, 6, 9, 1],
        ask: |a| a.config.minimum_segment_seconds = 0.8,
        ..PLAIN
    },
    Kind {
        what: "all segments short",
        chords: &[0, 3, 6, 9, 1],
        ask: |a| a.config.minimum_segment_seconds = 12.0,
        ..PLAIN
    },
    Kind {
        what: "long windows",
        chords: &[11, 11, 17],
        ask: |a| a.config.local_window_seconds = 1.5,
        ..PLAIN
    },
    Kind {
        what: "no longer than a window",
        chords: &[10, 14],
        ask: |a| a.config.local_window_seconds = 12.0,
        ..PLAIN
    },
    Kind { what: "noise", noise: 0.5, ..PLAIN },
    Kind { what: "silence", noise: 0.0, ..PLAIN },
    Kind {
        what: "loud frames, faint medians",
        noise: 0.0,
        spoil: |s| s.iter_mut().step_by(HOP_SIZE).for_each(|x| *x = 1e-3),
        ..PLAIN
    },
    Kind { what: "a loud stretch", chords: &[3], noise: 0.0, spoil: |s| s[160..].fill(0.0), ..PLAIN },
    Kind {
        what: "clipped",
        chords: &[1, 18],
        loud: 2.0,
        spoil: |s| s.iter_mut().for_each(|x| *x = x.clamp(-1.0, 1.0)),
        ..PLAIN
    },
    Kind {
        what: "infinite and other odd samples",
        chords: &[0, 6],
        spoil: |s| s[300..303].copy_from_slice(&[f32::INFINITY, f32::NAN, -0.0]),
        ..PLAIN
    },
    Kind {
        what: "too loud from the middle on",
        chords: &[0, 6],
        spoil: |s| s[192..].iter_mut().for_each(|x| *x *= 1e25),
        ..PLAIN
    },
    Kind { what: "a sheet for another rate", chords: &[0], ask: |a| a.rate = 176, ..PLAIN },
    Kind {
        what: "windows too close",
        chords: &[0],
        ask: |a| a.config.local_hop_seconds = 0.5f32.next_down(),
        ..PLAIN
    },
    Kind { what: "more frames than rows", chords: &[0], ask: |a| a.config.hop_size = 24, ..PLAIN },
];

/// What all pitch classes of these notes hear alike in the middle of a frame, in hundred-millionths.
#[rustfmt::skip]
const SHAPELESS: [i32; 20] = [
    745, -7_736, 100_000, 5_234, 7_957, 2_383, 202, -15_179, -406, 637, 14_702, 4_817, -4_721, -11_108, -12_426, 5_475,
    9_755, 22_069, 11_501, 9_713,
];

/// The same in every frame.
fn put_shapeless(from_frame_on: &mut [f32]) {
    let middle = from_frame_on.iter_mut().skip(6);
    middle.zip(SHAPELESS).for_each(|(x, told)| *x = told as f32 * 1e-8);
}

/// Three notes of a key, from the lowest octave.
fn triad(key: u8) -> [f32; 3] {
    let third = if key < 12 { 4 } else { 3 };
    [0, third, 7].map(|tone| {
        let note = NOTES.0 + (key % 12 + tone) % 12;
        440.0 * 2f32.powf((f32::from(note) - 69.0) / 12.0)
    })
}

fn samples(kind: &Kind, stream: u64) -> Vec<f32> {
    let noise = patterns(SEED, stream).map(|pattern| kind.noise * (2.0 * unit(pattern) - 1.0));
    let sample = |(at, noise): (usize, f32)| {
        let seconds = at as f32 / RATE as f32;
        let chord = kind.chords.get(at * kind.chords.len() / SAMPLES);
        let tone = |frequency: f32| kind.loud * (TAU * frequency * seconds).sin();
        chord.map_or(0.0, |&key| triad(key).into_iter().map(tone).sum()) + noise
    };
    noise.take(SAMPLES).enumerate().map(sample).collect()
}

/// Every other track asks for the second engine.
fn asked(kind: &Kind, stream: u64) -> Asked {
    let config = KeyConfig {
        frame_size: FRAME_SIZE,
        hop_size: HOP_SIZE,
        minimum_midi_note: NOTES.0,
        maximum_midi_note: NOTES.1,
        local_window_seconds: 0.4,
        local_hop_seconds: 0.5,
        alternate_coverage_threshold: 0.25,
        segment_confidence_threshold: 0.02,
        minimum_segment_seconds: 0.05,
        ..KeyConfig::default()
    };
    let mut samples = samples(kind, stream);
    (kind.spoil)(&mut samples);
    let engine = ENGINES[stream as usize % 2];
    let mut asked = Asked { what: kind.what, rate: RATE, config, engine, samples };
    (kind.ask)(&mut asked);
    asked
}

pub fn every_track() -> impl Iterator<Item = Asked> {
    KINDS.iter().zip(0..).map(|(kind, stream)| asked(kind, stream))
}
