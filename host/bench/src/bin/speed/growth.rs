//! How the time grows with the track: whole analyses, and segments alone; seconds, and milliseconds for each minute.
use crate::analyses::analysis_of;
use crate::rounds::{median_of, seconds};
use crate::segments::{segments_of, track};
use crate::tracks::chords;
use ulyptesh::Settings;

const RATE: u32 = 44_100;

/// Minutes of the tracks; segments are found on a track's frames alone, so theirs are longer, up to a day.
const ANALYSED: [usize; 7] = [1, 2, 4, 8, 16, 32, 64];
const CUT: [usize; 7] = [15, 30, 60, 120, 240, 720, 1_440];

const ROUNDS: usize = 3;

/// Stream of the seed.
const STREAM: u64 = 7;

fn header(what: &str) {
    println!("{what:30} {:>10} {:>10}", "s", "ms/minute");
}

fn print_row<A>(minutes: usize, work: impl Fn() -> A) {
    let time = median_of(ROUNDS, || seconds(&work));
    println!("{minutes:<30} {time:10.4} {:10.3}", time * 1e3 / minutes as f64);
}

/// Each track is the front of the longest.
fn print_analyses() {
    let longest = chords(STREAM, RATE, 60 * ANALYSED[ANALYSED.len() - 1]);
    header("minutes analysed, 44100 Hz");
    for minutes in ANALYSED {
        let front = &longest[..60 * minutes * RATE as usize];
        print_row(minutes, || analysis_of(Settings::for_rate(RATE), front));
    }
}

/// Frames of noise, with a window every half second.
fn print_segments() {
    header("minutes cut into segments");
    for minutes in CUT {
        let track = track(60 * minutes);
        print_row(minutes, || segments_of(&track));
    }
}

pub fn print_rows() {
    print_analyses();
    print_segments();
}
