//! Whole tracks of one second to ten minutes, beside the oracle's `analyze`.
use crate::analysis_calls::Asked;
use crate::analysis_left::ours;
use crate::frame_calls::settings;
use crate::groups::Groups;
use crate::their_analyses::theirs;
use bench::inputs::dice::Dice;
use bench::inputs::tracks::{KINDS, Maker};
use bench::oracle::config;
use bench::oracle::key_lime::KeyConfig;
use bench::oracle::tables::Tables;
use std::sync::Arc;
use ulyptesh::Settings;
use ulyptesh::calls::{Sheet, SheetHead};

/// Streams of the seed from here on are the whole tracks', one for each.
const STREAM: u64 = 70_000;

const TRACKS: usize = 540;

const RATES: [u32; 2] = [44_100, 48_000];

/// The longest, in seconds; one in so many is exactly as long.
const LONGEST: f32 = 600.0;
const LONGEST_EVERY: usize = 45;

/// Frame size and notes; the last are the Rust's own.
const SHAPES: [(usize, (u8, u8)); 8] = [
    (2_048, (60, 83)),
    (1_024, (57, 80)),
    (1_024, (72, 95)),
    (4_096, (48, 59)),
    (2_048, (55, 71)),
    (512, (60, 95)),
    (1_000, (69, 71)),
    (4_096, (36, 95)),
];

const LOCAL_WINDOWS: [f32; 6] = [0.7, 2.0, 3.0, 6.0, 12.0, 30.0];
const LOCAL_HOPS: [f32; 6] = [0.5, 0.5, 1.1, 3.0, 6.0, 20.0];
const COVERAGES: [f32; 6] = [0.25, 0.25, 0.1, 0.01, 0.5, 0.0];
const CONFIDENCES: [f32; 5] = [0.35, 0.1, 0.05, 0.02, 0.0];
const MINIMA: [f32; 6] = [12.0, 12.0, 2.0, 0.0, 5.0, 1e9];

/// Large hops and few notes for so many samples, and any local windows.
fn coarse_settings(dice: &mut Dice, rate: u32, samples: usize) -> Settings {
    let (frame_size, notes) = dice.one_of(&SHAPES);
    let hop_size = 500 + samples / (40 + dice.below(160));
    settings(rate, notes, frame_size, hop_size).with(|settings| {
        settings.local_window_seconds = dice.one_of(&LOCAL_WINDOWS);
        settings.local_hop_seconds = dice.one_of(&LOCAL_HOPS);
        settings.alternate_coverage_threshold = dice.one_of(&COVERAGES);
        settings.segment_confidence_threshold = dice.one_of(&CONFIDENCES);
        settings.minimum_segment_seconds = dice.one_of(&MINIMA);
    })
}

/// A sheet for each rate and shape, made once.
struct Sheets(Vec<Arc<Sheet>>);

impl Sheets {
    fn new() -> Self {
        let shaped = |rate| {
            SHAPES.map(|(frame_size, (minimum_midi_note, maximum_midi_note))| SheetHead {
                rate,
                minimum_midi_note,
                maximum_midi_note,
                frame_size,
            })
        };
        Self(RATES.into_iter().flat_map(shaped).map(|head| Arc::new(Tables::new(head).sheet)).collect())
    }

    fn of(&self, settings: &Settings) -> &Arc<Sheet> {
        self.0.iter().find(|sheet| sheet.head == settings.head()).expect("a sheet for each shape")
    }
}

/// One track in three has the Rust's own settings and is short, one in ten of these long enough for windows; the
/// others have any length. To some calls a row or two more are lent than they ask for.
fn track(seed: u64, nth: usize, sheets: &Sheets) -> Asked {
    let mut dice = Dice::new(seed, STREAM + nth as u64);
    let rate = dice.one_of(&RATES);
    let seconds = match nth {
        _ if nth % LONGEST_EVERY == 1 => LONGEST,
        _ if nth.is_multiple_of(30) => 18.0 + 12.0 * dice.unit(),
        _ if nth.is_multiple_of(3) => 1.0 + 4.0 * dice.unit().powi(2),
        _ => LONGEST.powf(dice.unit()),
    };
    let length = (f64::from(seconds) * f64::from(rate)) as usize;
    let settings = if nth.is_multiple_of(3) {
        Settings::for_rate(rate)
    } else {
        coarse_settings(&mut dice, rate, length)
    };
    let kind = &KINDS[dice.below(KINDS.len())];
    let samples = (kind.make)(&mut Maker { dice, rate }, length);
    let mut asked = Asked::new(kind.name, settings, sheets.of(&settings), samples);
    asked.lent_mut().for_each(|lent| *lent += nth / 3 % 3);
    asked
}

pub fn compare(groups: &mut Groups) {
    let (seed, sheets) = (groups.seed, Sheets::new());
    assert_eq!(config(&Settings::for_rate(RATES[0])), KeyConfig::default());
    let name = "analyses of whole tracks, 1 s to 10 min";
    groups.shared_group(name, TRACKS, |nth| track(seed, nth, &sheets), ours, theirs);
}
