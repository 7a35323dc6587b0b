//! Frames only, by both engines, beside the oracle's `frame_chroma_sequence`: every row that is written and every one
//! that stays.
use crate::filters_tracks::KINDS;
use crate::frame_calls::{Asked, Left, ours, refused, settings, untouched, whole};
use crate::groups::Groups;
use crate::refusals;
use bench::inputs::random::patterns;
use bench::oracle::config;
use bench::oracle::key_lime::ChromaFrame;
use bench::oracle::key_lime::expose::frame_chroma_sequence;
use bench::oracle::tables::Tables;
use std::sync::Arc;
use ulyptesh::Settings;
use ulyptesh::calls::{FrameRows, FramesResult};

/// Streams of the seed from here on are the frames'.
const STREAM: u64 = 50_000;

/// So many tracks of each shape.
const TRACKS: usize = 300;

/// Samples that are not finite, or whose squares are not.
const SPOILT: [f32; 6] = [f32::NAN, f32::INFINITY, f32::NEG_INFINITY, 1e19, 1e25, -f32::MAX];

/// Rate, notes, frame size, hop and by how much a track is longer than a frame, at most.
type Shape = (u32, (u8, u8), usize, usize, usize);

const SHAPES: [Shape; 9] = [
    (8_000, (60, 72), 32, 16, 200),
    (8_000, (72, 95), 64, 1, 9),
    (8_000, (60, 95), 256, 600, 1_500),
    (44_100, (84, 95), 32, 33, 150),
    (44_100, (69, 69), 1_024, 512, 2_000),
    (48_000, (84, 95), 128, 64, 700),
    (48_000, (69, 69), 333, 100, 900),
    (16_000, (250, 255), 40, 20, 300),
    (22_050, (100, 140), 100, 37, 400),
];

/// The positions whose energy is above 1e-8.
fn loud_positions(asked: &Asked) -> Vec<usize> {
    let Settings { frame_size, hop_size, .. } = asked.settings;
    let energy = |frame: &[f32]| {
        frame.iter().filter(|x| x.is_finite()).map(|x| x * x).sum::<f32>() / frame_size as f32
    };
    let loud = |(position, frame)| (energy(frame) > 1.0e-8).then_some(position);
    asked.samples.windows(frame_size).step_by(hop_size).enumerate().filter_map(loud).collect()
}

/// The oracle's loud frames with their energies, up to the first that is not finite; that one's position.
pub struct Heard {
    pub frames: Vec<ChromaFrame>,
    pub energies: Vec<f32>,
    pub broken: Option<usize>,
}

pub fn heard(asked: &Asked) -> Heard {
    let found = frame_chroma_sequence(&asked.samples, asked.settings.rate, config(&asked.settings));
    let (mut frames, mut energies) = found.unwrap_or_default();
    let whole = |at: &usize| energies[*at].is_finite() && frames[*at].values.iter().all(|x| x.is_finite());
    let good = (0..frames.len()).take_while(whole).count();
    let broken = (good < frames.len()).then(|| loud_positions(asked)[good]);
    frames.truncate(good);
    energies.truncate(good);
    Heard { frames, energies, broken }
}

/// Writes the frames from the front of the rows.
pub fn put_frames(heard: &Heard, rows: &mut FrameRows) {
    for (at, (frame, energy)) in heard.frames.iter().zip(&heard.energies).enumerate() {
        rows.centres[at] = frame.center_seconds;
        rows.values[at] = frame.values;
        rows.energies[at] = *energy;
    }
}

/// The request's table, then the oracle's frames up to the first that is not finite.
pub fn theirs(asked: Asked) -> Left {
    if let Some(refusal) = asked.refusal() {
        return refused(&asked, refusal);
    }
    let (mut rows, heard) = (untouched(asked.room), heard(&asked));
    put_frames(&heard, &mut rows);
    let (refusal, position) = heard.broken.map_or((0, 0), |position| (9, position as u64));
    Left::new(FramesResult { refusal, position, count: heard.frames.len() as u64 }, rows)
}

/// One track in three has but one loud stretch, one in eight a sample that is not finite or too large.
fn samples(seed: u64, stream: u64, nth: usize, length: usize) -> Vec<f32> {
    let mut draws = patterns(seed, stream);
    let mut draw = || draws.next().expect("patterns never end");
    let mut samples = KINDS[nth % KINDS.len()].track(seed, draw(), length);
    if draw() % 3 == 0 {
        let from = draw() as usize % length;
        let until = from + 1 + draw() as usize % 40;
        samples
            .iter_mut()
            .enumerate()
            .filter(|(at, _)| !(from..until).contains(at))
            .for_each(|(_, x)| *x = 0.0);
    }
    if draw() % 8 == 0 {
        samples[draw() as usize % length] = SPOILT[draw() as usize % SPOILT.len()];
    }
    samples
}

fn tracks(seed: u64, nth_shape: usize, shape: Shape) -> impl Iterator<Item = Asked> {
    let (rate, notes, size, hop, longer) = shape;
    let settings = settings(rate, notes, size, hop);
    let sheet = Arc::new(Tables::new(settings.head()).sheet);
    (0..TRACKS).map(move |nth| {
        let stream = STREAM + (nth_shape * TRACKS + nth) as u64;
        let draw = patterns(seed, stream).nth(9).expect("patterns never end");
        let length = size - 1 + (draw >> 8) as usize % (longer + 2);
        let positions = length.saturating_sub(size) / hop + 1;
        let room = [positions + (draw % 3) as usize, positions + (draw >> 2) as usize % 3, positions];
        let samples = samples(seed, stream, nth, length);
        Asked { what: KINDS[nth % KINDS.len()].name, settings, sheet: Arc::clone(&sheet), samples, room }
    })
}

/// One sample that is not finite or too large, in every place.
fn spoilt() -> impl Iterator<Item = Asked> {
    let whole = whole();
    let places = (0..whole.samples.len()).flat_map(|at| SPOILT.map(|value| (at, value)));
    places.map(move |(at, value)| {
        let mut asked = Asked { what: "one sample spoilt", ..whole.clone() };
        asked.samples[at] = value;
        asked
    })
}

pub fn compare(groups: &mut Groups) {
    let seed = groups.seed;
    for (nth, shape) in SHAPES.into_iter().enumerate() {
        let name = format!("frames of {} at {} Hz, hop {}", shape.2, shape.0, shape.3);
        groups.group(&name, tracks(seed, nth, shape), ours, theirs);
    }
    groups.group("frames, one sample spoilt in every place", spoilt(), ours, theirs);
    let passed = refusals::of_frames().filter(|asked| asked.refusal().is_none());
    groups.group("frames, the table's checks passed", passed, ours, theirs);
}
