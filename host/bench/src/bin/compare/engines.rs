//! Frames and analyses by one engine beside the other: every byte of all that is lent to be written, for tracks of
//! every kind and any number of Goertzel rows, which need not be those of the ported Rust.
use crate::analysis_calls::Asked;
use crate::analysis_left::untouched;
use crate::frame_calls::settings;
use crate::groups::Groups;
use bench::inputs::dice::Dice;
use bench::inputs::engines::ENGINES;
use bench::inputs::tracks::{KINDS, Maker};
use std::sync::Arc;
use ulyptesh::calls::{Buffers, NO_KEY, Sheet, analyse, frames};
use ulyptesh::{Engine, Settings};

/// Streams of the seed from here on, one for each track, and those of the usual settings.
const STREAM: u64 = 120_000;
const USUAL_STREAM: u64 = 125_000;

/// From no row to one for each note, each so often.
const ROWS: usize = 257;
const TURNS: usize = 4;

/// Tracks with the usual rows, in samples.
const RATES: [u32; 4] = [8_000, 22_050, 44_100, 48_000];
const USUAL_LENGTH: usize = 150_000;

/// What frames and analyse answer, and every byte that is lent to them, afterwards.
type Left = [(String, Vec<u8>); 2];

/// Every byte that is lent to be written.
fn bytes(lent: &Buffers) -> Vec<u8> {
    let Buffers { frames, work, estimates, segments } = lent;
    let times = [&frames.centres, &estimates.middles, &segments.starts, &segments.ends];
    let values = [&frames.energies, work, &estimates.certainties, &segments.confidences];
    let numbers = [&estimates.numbers, &estimates.shapeless, &segments.keys];
    let counts = segments.counts.iter().flat_map(|count| count.to_le_bytes());
    let values = frames.values.as_flattened().iter().chain(values.into_iter().flatten());
    let bytes = times.into_iter().flatten().flat_map(|x| x.to_bits().to_le_bytes());
    let bytes = bytes.chain(values.flat_map(|x| x.to_bits().to_le_bytes()));
    bytes.chain(numbers.into_iter().flatten().copied()).chain(counts).collect()
}

fn left(asked: &Asked, engine: Engine) -> Left {
    let (sheet, samples) = (&asked.call.sheet, &asked.call.samples);
    let settings = asked.call.settings.with(|settings| settings.engine = engine);
    let (mut of_frames, mut of_analysis) = (untouched(asked), untouched(asked));
    let counted = frames(settings, sheet, samples, &mut of_frames.frames);
    let told = analyse(settings, sheet, samples, &mut of_analysis);
    [(format!("{counted:?}"), bytes(&of_frames)), (format!("{told:?}"), bytes(&of_analysis))]
}

fn has_key(asked: &Asked) -> bool {
    let call = &asked.call;
    analyse(call.settings, &call.sheet, &call.samples, &mut untouched(asked)).key != NO_KEY
}

/// Windows every half second, each of which may start a segment; more rows are lent than a call asks for.
fn asked(dice: Dice, kind: usize, settings: Settings, sheet: &Arc<Sheet>, length: usize) -> Asked {
    let settings = settings.with(|settings| {
        settings.local_window_seconds = 1.0;
        settings.local_hop_seconds = 0.5;
        settings.segment_confidence_threshold = 0.0;
        settings.minimum_segment_seconds = 0.6;
    });
    let kind = &KINDS[kind % KINDS.len()];
    let samples = (kind.make)(&mut Maker { dice, rate: settings.rate }, length);
    let mut asked = Asked::new(kind.name, settings, sheet, samples);
    asked.lent_mut().for_each(|lent| *lent += 2);
    assert_eq!(asked.refusal(), None);
    asked
}

/// A sheet for all notes with so many Goertzel rows of any coefficients and weights, and a few constant-Q rows.
fn sheet_of_rows(dice: &mut Dice, settings: &Settings, rows: usize) -> Sheet {
    let few = settings.with(|settings| (settings.minimum_midi_note, settings.maximum_midi_note) = (60, 72));
    Sheet {
        head: settings.head(),
        goertzel_coefficients: (0..rows).map(|_| 4.0 * dice.unit() - 2.0).collect(),
        goertzel_weights: (0..rows).map(|_| dice.unit() + f32::MIN_POSITIVE).collect(),
        ..Sheet::for_call(&few)
    }
}

fn of_rows(seed: u64, nth: usize) -> Asked {
    let mut dice = Dice::new(seed, STREAM + nth as u64);
    let settings = settings(2_000, (0, 255), 32 + dice.below(70), 50 + dice.below(40));
    let sheet = Arc::new(sheet_of_rows(&mut dice, &settings, nth % ROWS));
    let length = 6_000 + dice.below(6_000);
    asked(dice, nth, settings, &sheet, length)
}

/// Tracks with the usual settings but for the windows.
fn usual(seed: u64) -> Vec<Asked> {
    let settings = RATES.map(Settings::for_rate);
    let sheets = settings.map(|settings| Arc::new(Sheet::for_call(&settings)));
    let shapes = settings.into_iter().zip(&sheets).cycle();
    let tracks = shapes.zip(USUAL_STREAM..).enumerate().take(KINDS.len() * RATES.len());
    tracks
        .map(|(nth, ((settings, sheet), stream))| {
            asked(Dice::new(seed, stream), nth / RATES.len(), settings, sheet, USUAL_LENGTH)
        })
        .collect()
}

/// Where few tracks have a key, little is compared.
fn compare_calls(groups: &mut Groups, name: &str, calls: &[Asked]) {
    let keyed = calls.iter().filter(|asked| has_key(asked)).count();
    assert!(3 * keyed > 2 * calls.len(), "{keyed} of {} tracks have a key", calls.len());
    let name = format!("frames and analyses by both engines, {name}");
    let [one, other] = ENGINES.map(|engine| move |asked: &Asked| left(asked, engine));
    groups.shared_group(&name, calls.len(), |nth| calls[nth].clone(), one, other);
}

pub fn compare(groups: &mut Groups) {
    let seed = groups.seed;
    let any_rows: Vec<Asked> = (0..TURNS * ROWS).map(|nth| of_rows(seed, nth)).collect();
    compare_calls(groups, "0 to 256 rows", &any_rows);
    compare_calls(groups, "the usual rows", &usual(seed));
}
