//! Short tracks with any settings, any room and any sheet, beside the request's table and the oracle's `analyze`.
use crate::analysis_calls::Asked;
use crate::analysis_left::ours;
use crate::filters_tracks;
use crate::groups::Groups;
use crate::their_analyses::theirs;
use bench::inputs::dice::Dice;
use bench::inputs::engines::{ENGINES, NO_ENGINES};
use bench::inputs::tracks::{self, Maker};
use bench::oracle::tables::Tables;
use std::sync::Arc;
use ulyptesh::Settings;
use ulyptesh::calls::{Sheet, SheetHead};

/// Streams of the seed from here on are the short tracks', two for each.
const STREAM: u64 = 80_000;

const TRACKS: usize = 20_000;

/// The shortest and about the longest, in samples.
const SHORTEST: f32 = 32.0;
const LONGEST: f32 = 4_000.0;

/// One in so many settings is odd.
const ODD: usize = 60;

/// Rate, notes and frame size; the last has no note that the oracle would not leave out.
const SHAPES: [(u32, (u8, u8), usize); 12] = [
    (200, (24, 40), 32),
    (250, (20, 41), 40),
    (400, (28, 52), 32),
    (500, (40, 50), 33),
    (700, (33, 56), 48),
    (1_000, (40, 60), 64),
    (1_000, (45, 45), 32),
    (2_000, (48, 72), 128),
    (4_000, (60, 83), 100),
    (8_000, (60, 72), 64),
    (8_000, (72, 95), 256),
    (300, (60, 72), 32),
];

const ODD_RATES: [u32; 5] = [0, 1, 192_000, 192_001, u32::MAX];
const ODD_FRAME_SIZES: [usize; 6] = [0, 31, 32, 65_536, 65_537, usize::MAX];
const ODD_HOP_SIZES: [usize; 5] = [0, 1, 1_048_576, 1_048_577, usize::MAX];
const ODD_FLOATS: [f32; 9] =
    [0.0, -0.0, 1e-45, -1.0, f32::MAX, f32::MIN, f32::NAN, f32::INFINITY, f32::NEG_INFINITY];

const LOCAL_HOPS: [f32; 6] = [0.5, 0.5, 0.500_000_06, 0.75, 1.3, 3.0];
const LOCAL_WINDOWS: [f32; 6] = [0.1, 0.3, 0.7, 1.0, 2.0, 6.0];
const COVERAGES: [f32; 6] = [0.25, 0.1, 0.02, 0.0, 0.5, -0.25];
const CONFIDENCES: [f32; 7] = [0.35, 0.1, 0.05, 0.02, 0.0, 0.0, -0.25];
const MINIMA: [f32; 6] = [0.0, 0.0, 0.8, 2.5, 12.0, 1e9];

/// Something that is done to a sheet, after which it is not well formed.
const DAMAGES: [fn(&mut Sheet); 8] = [
    |sheet| sheet.window[7] = 1.5,
    |sheet| sheet.window[31] = f32::NAN,
    |sheet| sheet.window.push(0.5),
    |sheet| sheet.goertzel_weights.push(1.0),
    |sheet| sheet.constant_q_windows.push(0.5),
    |sheet| sheet.constant_q_lengths.push(4),
    |sheet| sheet.constant_q_coefficients.push(0.0),
    |sheet| {
        sheet.goertzel_coefficients.insert(0, 2.5);
        sheet.goertzel_weights.push(1.0);
    },
];

fn odd_or<A: Copy>(dice: &mut Dice, odd: &[A], usual: A) -> A {
    if dice.one_in(ODD) { dice.one_of(odd) } else { usual }
}

fn float(dice: &mut Dice, usual: &[f32]) -> f32 {
    let usual = dice.one_of(usual);
    odd_or(dice, &ODD_FLOATS, usual)
}

/// Mostly what the sheet was made for; one hop in thirty is below half a second.
fn settings(dice: &mut Dice, head: SheetHead, samples: usize) -> Settings {
    let hop_size = 1 + head.frame_size / 4 + samples / (2 + dice.below(80));
    let hops: &[f32] = if dice.one_in(30) { &[0.5f32.next_down(), 0.1] } else { &LOCAL_HOPS };
    Settings::for_rate(odd_or(dice, &ODD_RATES, head.rate)).with(|settings| {
        settings.frame_size = odd_or(dice, &ODD_FRAME_SIZES, head.frame_size);
        settings.hop_size = odd_or(dice, &ODD_HOP_SIZES, hop_size);
        settings.minimum_midi_note = odd_or(dice, &[0, 255], head.minimum_midi_note);
        settings.maximum_midi_note = odd_or(dice, &[0, 255], head.maximum_midi_note);
        settings.local_window_seconds = float(dice, &LOCAL_WINDOWS);
        settings.local_hop_seconds = float(dice, hops);
        settings.alternate_coverage_threshold = float(dice, &COVERAGES);
        settings.segment_confidence_threshold = float(dice, &CONFIDENCES);
        settings.minimum_segment_seconds = float(dice, &MINIMA);
        let engine = dice.one_of(&ENGINES);
        settings.engine = odd_or(dice, &NO_ENGINES, engine);
    })
}

/// Chords and what may befall them, or a kind that may go wrong in a filter.
fn samples(mut dice: Dice, seed: u64, rate: u32, length: usize) -> (&'static str, Vec<f32>) {
    if dice.one_in(4) {
        let kind = dice.one_of(&filters_tracks::KINDS);
        return (kind.name, kind.track(seed, STREAM + dice.below(TRACKS) as u64, length));
    }
    let kind = &tracks::KINDS[dice.below(tracks::KINDS.len())];
    (kind.name, (kind.make)(&mut Maker { dice, rate }, length))
}

/// One sheet in forty is another's, one in forty is damaged.
fn sheet(dice: &mut Dice, sheets: &[Arc<Sheet>], usual: &Arc<Sheet>) -> Arc<Sheet> {
    let mut sheet = if dice.one_in(40) { &sheets[dice.below(sheets.len())] } else { usual }.clone();
    if dice.one_in(40) {
        dice.one_of(&DAMAGES)(Arc::make_mut(&mut sheet));
    }
    sheet
}

/// A little more than is asked for in one call of four, in one list too little in one of twelve.
fn change_room(dice: &mut Dice, asked: &mut Asked) {
    if dice.one_in(4) {
        asked.lent_mut().for_each(|lent| *lent += dice.below(4));
    }
    if dice.one_in(12) {
        let (list, none) = (dice.below(13), dice.one_in(3));
        asked
            .lent_mut()
            .skip(list)
            .take(1)
            .for_each(|lent| *lent = if none { 0 } else { lent.saturating_sub(1) });
    }
}

fn track(seed: u64, nth: usize, sheets: &[Arc<Sheet>]) -> Asked {
    let dice = |part| Dice::new(seed, STREAM + (2 * nth + part) as u64);
    let mut choices = dice(0);
    let usual = &sheets[choices.below(sheets.len())];
    let length = (SHORTEST * (LONGEST / SHORTEST).powf(choices.unit().sqrt())) as usize;
    let settings = settings(&mut choices, usual.head, length);
    let (name, samples) = samples(dice(1), seed, usual.head.rate, length);
    let mut asked = Asked::new(name, settings, &sheet(&mut choices, sheets, usual), samples);
    change_room(&mut choices, &mut asked);
    asked
}

pub fn compare(groups: &mut Groups) {
    let head = |(rate, (minimum_midi_note, maximum_midi_note), frame_size)| SheetHead {
        rate,
        minimum_midi_note,
        maximum_midi_note,
        frame_size,
    };
    let sheets = SHAPES.map(|shape| Arc::new(Tables::new(head(shape)).sheet));
    let seed = groups.seed;
    let name = "analyses of short tracks, any settings, room and sheet";
    groups.shared_group(name, TRACKS, |nth| track(seed, nth, &sheets), ours, theirs);
}
