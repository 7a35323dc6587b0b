//! The leaves of the chroma, beside the oracle's: whiten, normalise, onset weights, tuning, shift.
use crate::chroma_edges::{in_twelves, offsets, peaks, sums_at_floor};
use crate::edges::{f32_values, pairs};
use crate::groups::{Compared, Groups};
use bench::inputs::chromas::{Kind, plain_kinds};
use bench::oracle::key_lime::ChromaFrame;
use bench::oracle::key_lime::expose::{
    compute_onset_weights, estimate_tuning, normalize_chroma, shift_chroma, whiten_chroma,
};
use bench::probe;
use std::array;
use std::iter;
use ulyptesh::Chroma;

/// So many inputs of each kind, which makes over a million for each leaf.
const OF_EACH_KIND: usize = 1 << 17;

/// So many onset weights are asked for, two of them behind the last energy of a chroma.
const WEIGHTS: usize = 14;

/// Tunings are of up to this many frames.
const FRAMES: usize = 4;

type Frames = [Chroma; FRAMES];
type Weights = [f32; WEIGHTS];

/// A leaf on both sides.
struct Leaf<I, A> {
    name: &'static str,
    ours: fn(I) -> A,
    theirs: fn(I) -> A,
}

impl<I: Compared + Clone, A: Compared> Leaf<I, A> {
    fn compare(&self, groups: &mut Groups, which: &str, inputs: impl Iterator<Item = I>) {
        groups.group(&format!("{}, {which}", self.name), inputs, self.ours, self.theirs);
    }

    /// A group for each kind of chromas, with what the leaf is given made from them.
    fn compare_kinds<N: Iterator<Item = I>>(
        &self,
        groups: &mut Groups,
        kinds: impl Iterator<Item = Kind>,
        inputs: impl Fn(Kind) -> N,
    ) {
        for kind in kinds {
            let name = kind.name;
            self.compare(groups, name, inputs(kind));
        }
    }
}

fn their_whitened(mut chroma: Chroma) -> Chroma {
    whiten_chroma(&mut chroma);
    chroma
}

fn their_normalised(mut chroma: Chroma) -> Chroma {
    normalize_chroma(&mut chroma);
    chroma
}

/// Chromas as energies, with as many to lend, from none to all of them in turn.
fn energies(kind: Kind) -> impl Iterator<Item = (Chroma, usize)> {
    kind.chromas.zip((0..=12).cycle()).take(OF_EACH_KIND)
}

fn our_weights((energies, given): (Chroma, usize)) -> Weights {
    array::from_fn(|place| probe::onset_weight(&energies[..given], place))
}

/// The oracle's weights, with 0 behind them.
fn their_weights((energies, given): (Chroma, usize)) -> Weights {
    let mut weights = [0.0; WEIGHTS];
    weights[..given].copy_from_slice(&compute_onset_weights(&energies[..given]));
    weights
}

fn their_second_weight((first, second): (f32, f32)) -> f32 {
    compute_onset_weights(&[first, second])[1]
}

fn their_tuning((frames, count): (Frames, usize)) -> f32 {
    let frames = frames.map(|values| ChromaFrame { center_seconds: 0.0, values });
    estimate_tuning(&frames[..count])
}

/// Frames with as many to count, from one to all of them in turn.
fn in_frames(kind: Kind) -> impl Iterator<Item = (Frames, usize)> {
    let mut chromas = kind.chromas;
    let frames = move || array::from_fn(|_| chromas.next().expect("chromas never end"));
    iter::repeat_with(frames).zip((1..=FRAMES).cycle()).take(OF_EACH_KIND)
}

/// Frames with peaks off the middle, each another.
fn fixed_frames() -> Frames {
    array::from_fn(|frame| array::from_fn(|bin| ((bin * (frame + 5)) % 7) as f32 + frame as f32))
}

/// The oracle's tuning of the counted frames; 0 where fewer are lent.
fn their_front_tuning((lent, count): (usize, usize)) -> f32 {
    if count > lent { 0.0 } else { their_tuning((fixed_frames(), count)) }
}

fn compare_whiten(groups: &mut Groups) {
    let seed = groups.seed;
    let leaf = Leaf { name: "whiten", ours: |chroma: Chroma| probe::whiten(&chroma), theirs: their_whitened };
    leaf.compare_kinds(groups, plain_kinds(seed), |kind| kind.chromas.take(OF_EACH_KIND));
    leaf.compare(groups, "edges of the format", in_twelves(f32_values(seed)));
}

fn compare_normalise(groups: &mut Groups) {
    let seed = groups.seed;
    let ours = |chroma: Chroma| probe::normalize(&chroma);
    let leaf = Leaf { name: "normalise", ours, theirs: their_normalised };
    let kinds = plain_kinds(seed).chain([sums_at_floor(seed)]);
    leaf.compare_kinds(groups, kinds, |kind| kind.chromas.take(OF_EACH_KIND));
}

fn compare_onsets(groups: &mut Groups) {
    let seed = groups.seed;
    let leaf = Leaf { name: "onset weights", ours: our_weights, theirs: their_weights };
    leaf.compare_kinds(groups, plain_kinds(seed), energies);
    let our_second = |(first, second): (f32, f32)| probe::onset_weight(&[first, second], 1);
    groups.group("onset weights, pairs", pairs(seed), our_second, their_second_weight);
}

fn compare_tuning(groups: &mut Groups) {
    let seed = groups.seed;
    let ours = |(frames, count): (Frames, usize)| probe::tuning(&frames, count);
    let leaf = Leaf { name: "tuning", ours, theirs: their_tuning };
    leaf.compare_kinds(groups, plain_kinds(seed).chain(peaks(seed)), in_frames);
    let counts = (0..=FRAMES).flat_map(|lent| (0..=FRAMES + 2).map(move |count| (lent, count)));
    let our_front = |(lent, count): (usize, usize)| probe::tuning(&fixed_frames()[..lent], count);
    groups.group("tuning, every count", counts, our_front, their_front_tuning);
}

fn compare_shift(groups: &mut Groups) {
    let seed = groups.seed;
    let ours = |(chroma, offset): (Chroma, f32)| probe::shift(&chroma, offset);
    let theirs = |(chroma, offset): (Chroma, f32)| shift_chroma(&chroma, offset);
    let leaf = Leaf { name: "shift", ours, theirs };
    leaf.compare_kinds(groups, plain_kinds(seed), |kind| kind.chromas.zip(offsets(seed, OF_EACH_KIND)));
}

pub fn compare(groups: &mut Groups) {
    compare_whiten(groups);
    compare_normalise(groups);
    compare_onsets(groups);
    compare_tuning(groups);
    compare_shift(groups);
}
