//! Whole analyses at the edges: the longest track, days of more than 2^32 samples, the least hop, the least frame, a
//! sheet for another rate, no loud frame, faint medians, what the check table lets through.
use crate::analysis_calls::Asked;
use crate::analysis_left::ours;
use crate::frame_calls::settings;
use crate::groups::Groups;
use crate::packed::LONGEST;
use crate::refusals::{of_analyses, of_rooms};
use crate::their_analyses::{their_analysis, theirs};
use bench::inputs::dice::Dice;
use bench::inputs::tracks::{KINDS, Maker, kind};
use bench::oracle::tables::Tables;
use std::f32::consts::PI;
use std::sync::Arc;
use ulyptesh::Settings;
use ulyptesh::calls::Sheet;

/// Streams of the seed from here on are the edges'.
const STREAM: u64 = 69_000;

/// So many tracks of one segment whose key is not the classified one.
const LONE_SEGMENTS: usize = 60;

pub fn sheet_of(settings: &Settings) -> Arc<Sheet> {
    Arc::new(Tables::new(settings.head()).sheet)
}

fn asked(what: &'static str, settings: Settings, samples: Vec<f32>) -> Asked {
    Asked::new(what, settings, &sheet_of(&settings), samples)
}

fn tone(length: usize, step: f32) -> Vec<f32> {
    (0..length).map(|place| (2.0 * PI * step * place as f32).sin()).collect()
}

/// So many samples a second of a long track.
const LOW_RATE: u32 = 64;

/// A day and a sample, in which the key changes now and then.
fn day(seed: u64) -> Vec<f32> {
    let mut maker = Maker { dice: Dice::new(seed, STREAM + 1), rate: LOW_RATE };
    (kind("key change").make)(&mut maker, (LONGEST * u64::from(LOW_RATE)) as usize + 1)
}

/// The front of a track up to so many seconds, a sample more and a sample less: at the most windows, with short segments
/// joined, and at few, with none joined.
fn about(what: &'static str, seconds: u64, track: &[f32]) -> Vec<Asked> {
    let length = (seconds * u64::from(LOW_RATE)) as usize;
    let lengths = [length, length + 1, length - 1];
    let calls =
        [(0.5, 100.0), (6.0, 0.0)].into_iter().flat_map(|asked| lengths.map(|length| (asked, length)));
    calls
        .map(|((local_hop_seconds, minimum_segment_seconds), length)| {
            let settings = settings(LOW_RATE, (10, 21), 32, 3_000).with(|settings| {
                settings.local_hop_seconds = local_hop_seconds;
                settings.segment_confidence_threshold = 0.0;
                settings.minimum_segment_seconds = minimum_segment_seconds;
            });
            asked(what, settings, track[..length].to_vec())
        })
        .collect()
}

/// A second or less, about as many samples as a day has more than 2^32, or than two or three times as many.
fn beyond_32_bits() -> Vec<Asked> {
    let rates = (1..=3).map(|times: u64| (times << 32).div_ceil(LONGEST));
    let calls = rates.flat_map(|rate| {
        let more = (LONGEST * rate) as u32 as usize;
        [more - 1, more, more + 1].map(|length| (settings(rate as u32, (60, 72), 1_024, 4_096), length))
    });
    calls.map(|(settings, length)| asked("a day of more than 2^32", settings, tone(length, 0.01))).collect()
}

/// A local hop of half a second, beside it, and of the smallest f32.
fn least_hops() -> Vec<Asked> {
    let settings = settings(2_000, (48, 72), 128, 100);
    let hops = [0.5, 0.5f32.next_up(), 0.5f32.next_down(), 0.25, f32::MIN_POSITIVE, 1e-45];
    hops.map(|local_hop_seconds| {
        let settings = settings.with(|settings| {
            settings.local_hop_seconds = local_hop_seconds;
            settings.local_window_seconds = 1.0;
        });
        asked("about the least local hop", settings, tone(10_000, 0.1))
    })
    .into()
}

/// As many samples as the least frame has, one less, one more, none.
fn least_frames() -> Vec<Asked> {
    let settings = settings(8_000, (60, 72), 32, 16);
    [0, 1, 31, 32, 33].map(|length| asked("about the least frame", settings, tone(length, 0.06))).into()
}

/// Tracks of one rate with the sheet of another, with the Rust's own settings.
fn other_rates() -> Vec<Asked> {
    let swap = |(rate, sheet_rate)| {
        let sheet = sheet_of(&Settings::for_rate(sheet_rate));
        Asked::new("sheet for another rate", Settings::for_rate(rate), &sheet, tone(50_000, 0.01))
    };
    [(48_000, 44_100), (44_100, 48_000), (44_100, 44_100), (48_000, 48_000)].map(swap).into()
}

/// Silence of both signs, and a tone so soft that no frame is loud or just some are.
fn soft() -> Vec<Asked> {
    let settings = settings(8_000, (60, 72), 64, 50);
    let scales = [0.0, -0.0, 1e-30, 1e-5, 1.0e-4, 1.41e-4, 1.42e-4, 1.5e-4];
    let scaled = |scale: f32| tone(1_000, 0.0601).into_iter().map(|x| x.abs() * scale).collect();
    scales.map(|scale| asked("soft", settings, scaled(scale))).into()
}

/// Frames that begin with a click, which their window leaves out, before a tone that is hardly there: the chroma is
/// so small that it is not normalised, and the clicks' growth weighs it.
fn hardly_there(step: usize) -> Asked {
    let loudness = 1e-17 * 10f32.powf(step as f32 / 40.0);
    let mut samples: Vec<f32> = tone(512, 0.33).into_iter().map(|x| x * loudness).collect();
    samples.iter_mut().step_by(64).enumerate().for_each(|(nth, x)| *x = (1 + 2 * nth) as f32);
    asked("a tone that is hardly there", settings(8_000, (100, 100), 64, 64), samples)
}

/// Loud frames whose medians are faint, or just not: no row sounds, or each note in too few frames or hardly.
fn faint() -> Vec<Asked> {
    let no_rows = asked("no rows", settings(16_000, (250, 255), 40, 20), tone(400, 0.1));
    let click = |loud: usize| {
        let mut samples = vec![0.0; 6_400];
        samples[64 * 50] = 1.0;
        samples.iter_mut().step_by(64).take(loud).for_each(|x| *x = 0.01);
        asked("clicks where frames begin", settings(8_000, (69, 69), 64, 64), samples)
    };
    let hardly = (0..120).map(hardly_there);
    [no_rows].into_iter().chain([0, 1, 2, 3, 30].map(click)).chain(hardly).collect()
}

/// The calls that the check table lets through.
fn passed(calls: Vec<Asked>) -> Vec<Asked> {
    calls.into_iter().filter(|asked| asked.refusal().is_none()).collect()
}

/// Tracks that end in one segment, whose key is not the classified one.
fn lone_segments(seed: u64) -> Vec<Asked> {
    let settings = settings(4_000, (55, 83), 256, 400).with(|settings| {
        settings.local_window_seconds = 1.0;
        settings.local_hop_seconds = 0.5;
        settings.segment_confidence_threshold = 0.0;
        settings.minimum_segment_seconds = 1e9;
    });
    let sheet = sheet_of(&settings);
    let mut maker = Maker { dice: Dice::new(seed, STREAM), rate: settings.rate };
    let tracks = std::iter::repeat_with(|| {
        let kind = &KINDS[maker.dice.below(KINDS.len())];
        let length = 8_000 + maker.dice.below(16_000);
        Asked::new(kind.name, settings, &sheet, (kind.make)(&mut maker, length))
    });
    let differs = |asked: &Asked| {
        let told = their_analysis(asked);
        told.is_some_and(|told| told.segments.len() == 1 && told.key != Some(told.segments[0].key))
    };
    tracks.filter(differs).take(LONE_SEGMENTS).collect()
}

pub fn compare(groups: &mut Groups) {
    let (seed, day) = (groups.seed, day(groups.seed));
    let about_a_day = about("about a day", LONGEST, &day);
    assert_eq!(about_a_day[0].rows[0], 172_777, "a window of 12 s every half second");
    assert_eq!(
        [0, 1, 2].map(|nth| about_a_day[nth].refusal()),
        [None, Some(4), None],
        "a day, and a sample more"
    );
    let edges: [(&str, Vec<Asked>); 11] = [
        ("about a day", about_a_day),
        ("about 14,400 s", about("about 14,400 s", 14_400, &day)),
        ("a day of more than 2^32 samples", beyond_32_bits()),
        ("about the least local hop", least_hops()),
        ("about the least frame", least_frames()),
        ("sheets for another rate", other_rates()),
        ("silent or soft", soft()),
        ("faint medians", faint()),
        ("each list longer", passed(of_rooms())),
        ("the table's checks passed", passed(of_analyses())),
        ("one segment, not of the classified key", lone_segments(seed)),
    ];
    for (name, inputs) in edges {
        let name = format!("analyses, {name}");
        groups.group(&name, inputs.into_iter(), |asked| ours(&asked), |asked| theirs(&asked));
    }
}
