//! How many windows stand behind the segments of a track, beside what else the call leaves: in all as many as it has
//! estimates, and behind each segment those whose middles lie in it, as a border lies halfway between two middles.
use crate::analysis_calls::Asked;
use crate::analysis_left::{Left, ours};
use crate::frame_calls::settings;
use crate::groups::Groups;
use bench::inputs::dice::Dice;
use bench::inputs::tracks::{KINDS, Maker};
use std::iter;
use std::sync::Arc;
use ulyptesh::Settings;
use ulyptesh::calls::{AnalyseResult, Sheet};

/// Streams of the seed from here on, one for each track.
const STREAM: u64 = 130_000;

const TRACKS: usize = 1_000;

const RATE: u32 = 2_000;

/// Windows and hops of some lengths, from segments that stay as they are to such as are all joined.
fn any_windows(dice: &mut Dice) -> Settings {
    settings(RATE, (48, 72), 128, 150).with(|settings| {
        settings.local_window_seconds = dice.one_of(&[0.3, 1.0, 2.5, 12.0]);
        settings.local_hop_seconds = dice.one_of(&[0.5, 0.5, 0.7, 1.3]);
        settings.segment_confidence_threshold = dice.one_of(&[0.0, 0.0, 0.1, 0.35]);
        settings.minimum_segment_seconds = dice.one_of(&[0.0, 0.8, 1.5, 3.0, 12.0, 1e9]);
    })
}

/// Two seconds to twenty.
fn track(seed: u64, nth: usize, sheet: &Arc<Sheet>) -> Asked {
    let mut dice = Dice::new(seed, STREAM + nth as u64);
    let (settings, length) = (any_windows(&mut dice), 2 * RATE as usize + dice.below(18 * RATE as usize));
    let kind = &KINDS[nth % KINDS.len()];
    let samples = (kind.make)(&mut Maker { dice, rate: RATE }, length);
    Asked::new(kind.name, settings, sheet, samples)
}

/// How many of the middles lie in each segment.
fn by_middles(left: &Left) -> Vec<u32> {
    let before = |&end: &f64| left.middles().iter().filter(|&&middle| middle < end).count() as u32;
    let before_ends: Vec<u32> = iter::once(0).chain(left.times().iter().map(before)).collect();
    before_ends.windows(2).map(|pair| pair[1] - pair[0]).collect()
}

pub fn compare(groups: &mut Groups) {
    let sheet = Arc::new(Sheet::for_call(&any_windows(&mut Dice::new(groups.seed, STREAM))));
    let left: Vec<Left> = (0..TRACKS).map(|nth| ours(&track(groups.seed, nth, &sheet))).collect();
    let such = |told: fn(&AnalyseResult) -> bool| left.iter().filter(|left| told(&left.answer)).count();
    let some = [such(|told| told.segments == 1 && told.estimates == 0), such(|told| told.segments > 2)];
    assert!(some.iter().all(|&tracks| tracks > TRACKS / 20), "no estimates, several segments: {some:?}");
    let in_all = |nth: usize| left[nth].windows().iter().sum::<u32>().into();
    let estimates = |nth: usize| left[nth].answer.estimates;
    groups.group("windows behind all segments of a track", 0..TRACKS, in_all, estimates);
    let (windows, wanted) = (|nth: usize| left[nth].windows().to_vec(), |nth: usize| by_middles(&left[nth]));
    groups.group("windows behind each segment, by their middles", 0..TRACKS, windows, wanted);
}
