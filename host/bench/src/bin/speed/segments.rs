//! The segments of long tracks from their frames, beside the oracle's: seconds for one call.
use crate::SEED;
use crate::rounds::{Pair, ROUNDS, header, median_of, seconds};
use bench::inputs::chromas::{draws, uniform};
use bench::oracle::key_lime::expose::{estimate_segments, key_from_index};
use bench::oracle::{self, config};
use bench::probe::segments::{Track, segments};
use ulyptesh::Settings;
use ulyptesh::calls::{Buffers, EstimateRows, SegmentRows, frame_positions};

const RATE: u32 = 44_100;

/// Hours of the tracks, and rounds of each beside the oracle, which looks at every frame for each window: at twelve hours
/// it would take more than a minute.
const BESIDE_ORACLE: [(usize, usize); 2] = [(1, 7), (4, 3)];
const ALONE: [usize; 2] = [12, 24];

/// The Rust's own settings with the most windows: one every half second.
fn settings() -> Settings {
    Settings::for_rate(RATE).with(|settings| settings.local_hop_seconds = 0.5)
}

/// Every frame is loud, and has a chroma of its own.
pub fn track(seconds: usize) -> Track {
    let (settings, samples) = (settings(), seconds * RATE as usize);
    let positions = frame_positions(&settings, samples);
    let Settings { frame_size, hop_size, .. } = settings;
    let centre = |position| (position * hop_size + frame_size / 2) as f64 / f64::from(RATE);
    Track {
        settings,
        samples,
        key: 0,
        confidence: 0.5,
        centres: (0..positions).map(centre).collect(),
        values: draws(SEED, 4).map(uniform).take(positions).collect(),
    }
}

/// Every row that is asked for gets an estimate.
pub fn segments_of(track: &Track) -> (EstimateRows, SegmentRows) {
    let mut lent = Buffers::for_track(&track.settings, track.samples);
    let told = segments(track, &mut lent.estimates, &mut lent.segments);
    assert_eq!((told.outcome, told.estimates), (0, lent.estimates.middles.len()));
    (lent.estimates, lent.segments)
}

fn print_beside_oracle((hours, rounds): (usize, usize)) {
    let track = track(3_600 * hours);
    let (frames, config, key) = (oracle::frames(&track), config(&track.settings), key_from_index(0));
    let theirs = || estimate_segments(&frames, (3_600 * hours) as f64, key, 0.5, config);
    Pair::of_rounds(rounds, || seconds(|| segments_of(&track)), || seconds(theirs)).print(&name(hours));
}

fn print_alone(hours: usize) {
    let track = track(3_600 * hours);
    println!("{:30} {:10.3}", name(hours), median_of(ROUNDS, || seconds(|| segments_of(&track))));
}

fn name(hours: usize) -> String {
    format!("{hours} h, {RATE} Hz")
}

/// Up to a day of frames, with a window every half second.
pub fn print_rows() {
    header("s for the segments of a track", "oracle");
    BESIDE_ORACLE.into_iter().for_each(print_beside_oracle);
    ALONE.into_iter().for_each(print_alone);
}
