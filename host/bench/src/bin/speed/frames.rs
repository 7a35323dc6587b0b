//! The frames of a whole track beside the oracle's: seconds for one call, tables and all.
use crate::engines::{Pairs, settings_by};
use crate::rounds::{Pair, header};
use crate::tracks::noise;
use bench::oracle::config;
use bench::oracle::key_lime::expose::frame_chroma_sequence;
use ulyptesh::Settings;
use ulyptesh::calls::{Buffers, FrameRows, Sheet, frames};

const RATE: u32 = 44_100;
const SECONDS: usize = 240;

/// Noise this much softer has no loud frame.
const SOFTER: f32 = 1e-5;

/// The frames of a track, and how many of them are loud.
fn loud_frames_of(settings: Settings, track: &[f32]) -> (FrameRows, u64) {
    let mut rows = Buffers::for_track(&settings, track.len()).frames;
    let told = frames(settings, &Sheet::for_call(&settings), track, &mut rows);
    (rows, told.count)
}

/// The frames of a track on which all are loud.
pub fn frames_of(settings: Settings, track: &[f32]) -> FrameRows {
    let (rows, count) = loud_frames_of(settings, track);
    assert_eq!(count, rows.centres.len() as u64);
    rows
}

/// Four minutes of noise, with the Rust's own settings; of the quiet one the energies alone are worked out.
pub fn print_rows() {
    let (settings, track) = (Settings::for_rate(RATE), noise(3, SECONDS * RATE as usize));
    let quiet: Vec<f32> = track.iter().map(|x| x * SOFTER).collect();
    header("s for the frames of a track", "oracle");
    Pairs::of_work(
        |engine| frames_of(settings_by(engine, RATE), &track),
        || frame_chroma_sequence(&track, RATE, config(&settings)),
    )
    .print("4 minutes", RATE);
    Pair::of_work(
        || assert_eq!(loud_frames_of(settings, &quiet).1, 0),
        || assert!(frame_chroma_sequence(&quiet, RATE, config(&settings)).is_none()),
    )
    .print(&format!("4 quiet minutes, {RATE} Hz"));
}
