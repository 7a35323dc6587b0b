//! An analyzer that is used again, beside new ones; its frames alone, beside those of an analysis; its estimates and
//! the windows behind its segments, beside the rows of a call; each by the other engine; and the settings that it
//! takes, beside the request's words.
use crate::analysis_calls::refusal_of;
use crate::frame_calls::settings;
use crate::groups::{Groups, compared_as_shown};
use bench::inputs::dice::Dice;
use bench::inputs::engines::{ENGINES, NO_ENGINES, by_other};
use bench::inputs::tracks::{KINDS, Maker, put_unheard_click};
use ulyptesh::calls::{AnalyseResult, Buffers, EstimateRows, Sheet, analyse};
use ulyptesh::{Analysis, Analyzer, Estimate, LoudFrame, Refusal, Settings};

/// Streams of the seed from here on.
const STREAM: u64 = 95_000;

/// So many turns of an analyzer.
const TURNS: usize = 40;

const RATES: [u32; 3] = [8_000, 11_025, 12_000];

/// So many settings are checked; of each, one number in so many is at a limit.
const CHECKED: usize = 10_000;
const AT_LIMIT: usize = 8;

/// Limits of rates, sizes and all else. A day has more samples than the largest frame at any rate.
const RATE_LIMITS: [u32; 5] = [0, 1, 192_000, 192_001, u32::MAX];
const SIZE_LIMITS: [usize; 9] = [0, 1, 31, 32, 33, 65_535, 65_536, 65_537, usize::MAX];
const HOP_LIMITS: [usize; 5] = [0, 1, 1_048_576, 1_048_577, usize::MAX];
const NOTE_LIMITS: [u8; 5] = [0, 59, 60, 61, 255];
const FLOAT_LIMITS: [f32; 12] = [
    0.0,
    -0.0,
    1e-45,
    -1.0,
    0.5,
    0.5f32.next_up(),
    0.5f32.next_down(),
    f32::MAX,
    f32::MIN,
    f32::NAN,
    f32::INFINITY,
    f32::NEG_INFINITY,
];

/// The loud frames of a track, and why it was refused behind them or before.
type Heard = (Vec<LoudFrame>, Option<Refusal>);

/// Middle, key number and confidence of an estimate, and whether its chroma has no shape.
type Estimated = ((f64, u8), (f32, bool));

compared_as_shown!(Result<Analysis, Refusal>, LoudFrame, Refusal);

/// A track of a second or so; the settings change from turn to turn, and three in ten are refused.
fn turn(seed: u64, nth: usize) -> (Settings, Vec<f32>) {
    let mut dice = Dice::new(seed, STREAM + nth as u64);
    let mut settings = settings(dice.one_of(&RATES), (dice.one_of(&[48, 60]), 95), 1_024, 512);
    settings.engine = ENGINES[nth % 2];
    let length = 500 + dice.below(2 * settings.rate as usize);
    match dice.below(10) {
        0 => settings.rate = 200_000,
        1 => settings.local_hop_seconds = 0.25,
        2 => settings.engine = dice.one_of(&NO_ENGINES),
        _ => {}
    }
    let kind = &KINDS[dice.below(KINDS.len())];
    (settings, (kind.make)(&mut Maker { dice, rate: settings.rate }, length))
}

fn analysed(analyzer: &mut Analyzer, settings: Settings, samples: &[f32]) -> Result<Analysis, Refusal> {
    analyzer.set(settings)?;
    analyzer.analyse(samples)
}

/// With the other engine where there is one.
fn by_the_other((settings, samples): (Settings, Vec<f32>)) -> (Settings, Vec<f32>) {
    (by_other(&settings).unwrap_or(settings), samples)
}

fn analysed_anew(seed: u64, nth: usize) -> Result<Analysis, Refusal> {
    let (settings, samples) = by_the_other(turn(seed, nth));
    Analyzer::new(settings)?.analyse(&samples)
}

/// The frames alone; those before one that is not finite are left.
fn heard(analyzer: &mut Analyzer, settings: Settings, samples: &[f32]) -> Heard {
    if let Err(why) = analyzer.set(settings) {
        return (vec![], Some(why));
    }
    let told = analyzer.frames(samples).map(Iterator::collect);
    match told {
        Ok(frames) => (frames, None),
        Err(why) => (analyzer.loud_frames().collect(), Some(why)),
    }
}

/// What an analysis leaves.
fn left_anew(seed: u64, nth: usize) -> Heard {
    let (settings, samples) = by_the_other(turn(seed, nth));
    match Analyzer::new(settings) {
        Err(why) => (vec![], Some(why)),
        Ok(mut analyzer) => {
            let why = analyzer.analyse(&samples).err();
            (analyzer.loud_frames().collect(), why)
        }
    }
}

/// All turns by one analyzer, which has seen longer and shorter tracks, other rates and refusals before.
fn compare_analyzers(groups: &mut Groups) {
    let (seed, mut analyzer) = (groups.seed, Analyzer::for_rate(RATES[0]).expect("a rate that is taken"));
    let mut in_turn = |nth| {
        let (settings, samples) = turn(seed, nth);
        let analysis = analysed(&mut analyzer, settings, &samples);
        (analysis, heard(&mut analyzer, settings, &samples))
    };
    let (again, frames): (Vec<_>, Vec<_>) = (0..TURNS).map(&mut in_turn).unzip();
    let again = |nth: usize| again[nth].clone();
    groups.group("an analyzer used again", 0..TURNS, again, |nth| analysed_anew(seed, nth));
    let frames = |nth: usize| frames[nth].clone();
    groups.group("an analyzer's frames alone", 0..TURNS, frames, |nth| left_anew(seed, nth));
    compare_estimates(groups);
    compare_windows(groups);
}

/// The estimates, and how many an analysis counts that are without shape.
fn compare_estimates(groups: &mut Groups) {
    let seed = groups.seed;
    let left = |nth| estimates_left(seed, nth);
    let seen: Vec<bool> = (0..TURNS).flat_map(left).map(|((_, _), (_, shapeless))| shapeless).collect();
    assert!(seen.contains(&true) && seen.contains(&false), "some windows have no shape, and some have one");
    groups.group("an analyzer's estimates", 0..TURNS, |nth| estimates(seed, nth), left);
    let counted = |nth| left(nth).iter().filter(|told| told.1.1).count();
    groups.group("estimates without shape, counted", 0..TURNS, |nth| shapeless_estimates(seed, nth), counted);
}

/// The windows behind each segment, and those behind all of them.
fn compare_windows(groups: &mut Groups) {
    let seed = groups.seed;
    let (windows, left) = (|nth| windows(seed, nth), |nth| windows_left(seed, nth));
    let several = (0..TURNS).filter(|&nth| left(nth).len() > 1).count();
    assert!((1..TURNS).contains(&several), "some tracks have several segments, and some have not");
    groups.group("windows behind an analyzer's segments", 0..TURNS, windows, left);
    let in_all = |nth| windows(nth).iter().sum::<u32>() as usize;
    let estimates = |nth| analysed_windows(seed, nth).map_or(0, |told| told.estimate_count);
    groups.group("windows behind all of an analyzer's segments", 0..TURNS, in_all, estimates);
}

/// A track with windows, or none where it is refused.
fn analysed_windows(seed: u64, nth: usize) -> Option<Analysis> {
    let (settings, samples) = of_windows(seed, nth);
    Analyzer::new(settings).expect("settings that are taken").analyse(&samples).ok()
}

fn shapeless_estimates(seed: u64, nth: usize) -> usize {
    analysed_windows(seed, nth).map_or(0, |told| told.shapeless_estimate_count)
}

/// How many windows stand behind each segment.
fn windows(seed: u64, nth: usize) -> Vec<u32> {
    let segments = analysed_windows(seed, nth).map_or(vec![], |told| told.segments);
    segments.iter().map(|segment| segment.windows).collect()
}

/// The estimates that an analyzer has of a track, or none where it is refused.
fn estimates(seed: u64, nth: usize) -> Vec<Estimated> {
    let (settings, samples) = of_windows(seed, nth);
    let mut analyzer = Analyzer::new(settings).expect("settings that are taken");
    drop(analyzer.analyse(&samples));
    let estimated = |told: Estimate| ((told.middle, told.key.number()), (told.confidence, told.shapeless));
    analyzer.estimates().map(estimated).collect()
}

/// What the call answers, and what it leaves in its rows.
fn left(seed: u64, nth: usize) -> (AnalyseResult, Buffers) {
    let (settings, samples) = by_the_other(of_windows(seed, nth));
    let mut lent = Buffers::for_track(&settings, samples.len());
    (analyse(settings, &Sheet::for_call(&settings), &samples, &mut lent), lent)
}

fn windows_left(seed: u64, nth: usize) -> Vec<u32> {
    let (told, lent) = left(seed, nth);
    lent.segments.counts[..told.segments as usize].to_vec()
}

fn estimates_left(seed: u64, nth: usize) -> Vec<Estimated> {
    let (told, lent) = left(seed, nth);
    let EstimateRows { middles, numbers, certainties, shapeless } = lent.estimates;
    let told_apart = certainties.into_iter().zip(shapeless.into_iter().map(|told| told == 1));
    let rows = middles.into_iter().zip(numbers).zip(told_apart);
    rows.take(told.estimates as usize).collect()
}

/// Ten seconds or so with a window every half second, of which each may start a segment; some segments stay short, and
/// every other track begins with a click that no note hears, and silence for a window.
fn of_windows(seed: u64, nth: usize) -> (Settings, Vec<f32>) {
    let mut dice = Dice::new(seed, STREAM + CHECKED as u64 + nth as u64);
    let settings = settings(RATES[0], (48, 95), 1_024, 512).with(|settings| {
        settings.local_window_seconds = 1.0;
        settings.local_hop_seconds = 0.5;
        settings.segment_confidence_threshold = 0.0;
        settings.minimum_segment_seconds = [0.0, 1.2, 12.0][nth % 3];
        settings.engine = ENGINES[nth / 2 % 2];
    });
    let (kind, length) = (&KINDS[nth % KINDS.len()], 60_000 + dice.below(40_000));
    let mut samples = (kind.make)(&mut Maker { dice, rate: RATES[0] }, length);
    if nth.is_multiple_of(2) {
        put_unheard_click(&mut samples[..2 * RATES[0] as usize]);
    }
    (settings, samples)
}

fn at_limit_or<A: Copy>(dice: &mut Dice, limits: &[A], usual: A) -> A {
    if dice.one_in(AT_LIMIT) { dice.one_of(limits) } else { usual }
}

/// The Rust's own settings but for some numbers at limits.
fn about_limits(dice: &mut Dice) -> Settings {
    let usual = Settings::for_rate(44_100);
    Settings::for_rate(at_limit_or(dice, &RATE_LIMITS, usual.rate)).with(|settings| {
        settings.frame_size = at_limit_or(dice, &SIZE_LIMITS, usual.frame_size);
        settings.hop_size = at_limit_or(dice, &HOP_LIMITS, usual.hop_size);
        settings.minimum_midi_note = at_limit_or(dice, &NOTE_LIMITS, usual.minimum_midi_note);
        settings.maximum_midi_note = at_limit_or(dice, &NOTE_LIMITS, usual.maximum_midi_note);
        for number in [
            &mut settings.local_window_seconds,
            &mut settings.local_hop_seconds,
            &mut settings.alternate_coverage_threshold,
            &mut settings.segment_confidence_threshold,
            &mut settings.minimum_segment_seconds,
        ] {
            *number = at_limit_or(dice, &FLOAT_LIMITS, *number);
        }
        let engine = dice.one_of(&ENGINES);
        settings.engine = at_limit_or(dice, &NO_ENGINES, engine);
    })
}

/// The front of the request's table, for a track of one frame: no track is analysed where that is not.
fn compare_checks(groups: &mut Groups) {
    let mut dice = Dice::new(groups.seed, STREAM + TURNS as u64);
    let checked = (0..CHECKED).map(|_| about_limits(&mut dice));
    let ours = |settings: Settings| settings.check().err().map(|why| why.number());
    groups.group("settings checked", checked, ours, |settings| refusal_of(&settings, settings.frame_size));
}

pub fn compare(groups: &mut Groups) {
    compare_analyzers(groups);
    compare_checks(groups);
}
