//! Whole analyses beside the oracle's `analyze`: seconds for one call, tables and all, and milliseconds by stage.
use crate::engines::{Pairs, settings_by};
use crate::frames::frames_of;
use crate::rounds::{header, median_of, seconds};
use crate::segments::segments_of;
use crate::tracks::chords;
use bench::inputs::engines::ENGINES;
use bench::oracle::config;
use bench::oracle::key_lime::analyze;
use bench::probe::segments::Track;
use bench::probe::weighted_medians;
use ulyptesh::Settings;
use ulyptesh::calls::{Buffers, FrameRows, Sheet, analyse};

const RATES: [u32; 2] = [44_100, 48_000];
const SECONDS: usize = 240;

/// Rounds of a stage, which is ours alone.
const ROUNDS: usize = 7;

/// Stream of the seed.
const STREAM: u64 = 5;

/// The analysis of a track that has a key.
pub fn analysis_of(settings: Settings, track: &[f32]) -> Buffers {
    let mut lent = Buffers::for_track(&settings, track.len());
    let told = analyse(settings, &Sheet::for_call(&settings), track, &mut lent);
    assert!(told.key < 24);
    lent
}

/// Half a minute with the Rust's own settings.
pub fn analyse_once() {
    analysis_of(Settings::for_rate(RATES[0]), &chords(STREAM, RATES[0], 30));
}

fn print_stage<A>(name: &str, work: impl Fn() -> A) {
    println!("{name:30} {:10.2}", median_of(ROUNDS, || seconds(&work)) * 1e3);
}

/// Each stage alone, on what the one before it leaves.
fn print_stages(rate: u32, track: &[f32]) {
    println!("{:30} {:>10}", format!("ms for the stages, {rate} Hz"), "ours");
    for engine in ENGINES {
        print_stage(&format!("frames, engine {}", engine.0), || frames_of(settings_by(engine, rate), track));
    }
    let settings = Settings::for_rate(rate);
    let FrameRows { centres, values, energies } = frames_of(settings, track);
    let count = values.len();
    print_stage("medians", || weighted_medians(&values, &energies, &mut vec![0.0; count], count));
    let heard = Track { settings, samples: track.len(), key: 0, confidence: 0.5, centres, values };
    print_stage("segments", || segments_of(&heard));
}

/// What a caller lends for a minute.
fn print_memory() {
    println!("{:30} {:>10}", "bytes lent for a minute", "ours");
    for rate in RATES {
        let lent = Buffers::for_track(&Settings::for_rate(rate), 60 * rate as usize);
        println!("{:30} {:10}", format!("{rate} Hz"), lent.bytes());
    }
}

pub fn print_rows() {
    header("s for the analysis of a track", "oracle");
    let tracks = RATES.map(|rate| chords(STREAM, rate, SECONDS));
    for (rate, track) in RATES.into_iter().zip(&tracks) {
        let config = config(&Settings::for_rate(rate));
        Pairs::of_work(
            |engine| analysis_of(settings_by(engine, rate), track),
            || analyze(track, rate, config),
        )
        .print("4 minutes", rate);
    }
    print_stages(RATES[0], &tracks[0]);
    print_memory();
}
