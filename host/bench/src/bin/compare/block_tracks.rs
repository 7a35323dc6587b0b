//! Tracks on which frame positions that are worked out together could go wrong: loud up to both ends, about as long
//! as the longest window, with any count of positions, quiet in runs, with any number of rows, not finite anywhere.
use crate::analysis_calls::Asked;
use crate::frame_calls::{self, settings};
use crate::frames::{self, heard};
use crate::groups::Groups;
use crate::track_edges::sheet_of;
use crate::{analysis_left, their_analyses};
use bench::inputs::random::patterns;
use std::sync::Arc;
use ulyptesh::Settings;
use ulyptesh::calls::Sheet;

/// Streams of the seed from here on are these tracks', one for each length.
const STREAM: u64 = 97_000;

/// The Rust's own notes.
const NOTES: (u8, u8) = (36, 95);

/// Most positions of a track in runs, and positions that are each the first one not finite.
const POSITIONS: usize = 40;
const BROKEN: usize = 24;

/// The longest run of quiet positions or of loud ones.
const LONGEST_RUN: usize = 17;

/// Loud samples become quiet ones by a factor: frames take what is not finite as 0.
const QUIET: [f32; 4] = [0.0, 1e-5, f32::NAN, f32::INFINITY];

/// Samples that are not finite, or whose powers may not be.
const SPOILT: [f32; 10] =
    [f32::NAN, f32::INFINITY, f32::NEG_INFINITY, 1e17, 1e18, 1e19, -1e20, 1e22, 1e25, f32::MAX];

/// Kinds of sound at full scale, each sample from its place and a random pattern.
const FULL_SCALE: [fn(usize, u64) -> bool; 3] = [
    |_, pattern| pattern % 2 == 0,
    |place, _| place / 37 % 2 == 0,
    |place, _| place * place / 4_001 % 2 == 0,
];

/// Full scale from the first sample to the last; the kind changes with the length.
fn loud(seed: u64, length: usize) -> Vec<f32> {
    let kind = FULL_SCALE[length % FULL_SCALE.len()];
    let sign = |(place, pattern)| if kind(place, pattern) { 1.0 } else { -1.0 };
    patterns(seed, STREAM + length as u64).take(length).enumerate().map(sign).collect()
}

/// Settings and their sheet.
#[derive(Clone)]
struct Shape {
    settings: Settings,
    sheet: Arc<Sheet>,
}

impl Shape {
    fn new(rate: u32, notes: (u8, u8), frame_size: usize, hop_size: usize) -> Self {
        let settings = settings(rate, notes, frame_size, hop_size);
        Self { settings, sheet: sheet_of(&settings) }
    }

    fn with_hop(&self, hop_size: usize) -> Self {
        Self { settings: self.settings.with(|settings| settings.hop_size = hop_size), ..self.clone() }
    }

    fn longest_window(&self) -> usize {
        self.sheet.constant_q_lengths.iter().copied().max().expect("the sheet has rows") as usize
    }

    /// How long a track of so many positions is; of the samples behind the last, as many as make no other.
    fn length(&self, positions: usize, behind: usize) -> usize {
        let Settings { frame_size, hop_size, .. } = self.settings;
        frame_size + (positions - 1) * hop_size + behind % hop_size
    }

    fn call(&self, what: &'static str, samples: Vec<f32>) -> Asked {
        let asked = Asked::new(what, self.settings, &self.sheet, samples);
        assert_eq!(asked.refusal(), None);
        asked
    }

    /// Loud throughout, of half the longest window, of all of it, of twice as much, a sample less and one more; and
    /// of a frame.
    fn about_longest_window(&self, seed: u64) -> Vec<Asked> {
        let (window, frame) = (self.longest_window(), self.settings.frame_size);
        let about = [window / 2, window, 2 * window].into_iter().flat_map(|length| length - 1..=length + 1);
        let lengths = about.chain([frame, frame + 1, window + 13, window + frame / 2]);
        let long = lengths.filter(|&length| length >= frame);
        long.map(|length| self.call("about the longest window", loud(seed, length))).collect()
    }

    /// Loud throughout, of each of these counts of positions.
    fn of_counts(&self, seed: u64, counts: impl Iterator<Item = usize>) -> Vec<Asked> {
        counts.map(|count| self.call("loud throughout", loud(seed, self.length(count, count)))).collect()
    }
}

/// Tracks about as long as the longest window, with hops from a sample to more than a frame.
fn about_longest_window(seed: u64) -> Vec<Asked> {
    let shapes: [(Shape, &[usize]); 3] = [
        (Shape::new(44_100, NOTES, 4_096, 2_048), &[2_048, 4_097, 9_000]),
        (Shape::new(2_000, (48, 72), 128, 64), &[1, 7, 64, 300]),
        (Shape::new(8_000, (60, 95), 256, 100), &[1, 100, 2_048]),
    ];
    let with_hops = shapes.iter().flat_map(|(shape, hops)| hops.iter().map(|&hop| shape.with_hop(hop)));
    with_hops.flat_map(|shape| shape.about_longest_window(seed)).collect()
}

/// Every count of positions up to five blocks of eight.
fn every_count(seed: u64) -> Vec<Asked> {
    let usual = Shape::new(44_100, NOTES, 4_096, 2_048);
    let small = [(48_000, (69, 80), 512, 256), (8_000, (60, 72), 64, 1), (8_000, (48, 72), 64, 90)];
    let of_small = small.into_iter().flat_map(|(rate, notes, frame_size, hop_size)| {
        Shape::new(rate, notes, frame_size, hop_size).of_counts(seed, 1..=POSITIONS)
    });
    let one_by_one = usual.with_hop(1).of_counts(seed, 8..24);
    let apart = usual.with_hop(5_000).of_counts(seed, 8..24);
    usual.of_counts(seed, 1..=POSITIONS).into_iter().chain(one_by_one).chain(apart).chain(of_small).collect()
}

/// Whether a position is loud: quiet runs are this long, loud ones otherwise, from any phase on.
fn is_loud(position: usize, run: usize, phase: usize) -> bool {
    let loud_run = 1 + (3 * run + phase) % LONGEST_RUN;
    (position + phase) % (run + loud_run) >= run
}

/// The track, quiet by this factor in runs.
fn quietened(shape: &Shape, seed: u64, (run, phase): (usize, usize), factor: f32) -> Vec<f32> {
    let mut samples = loud(seed, shape.length(POSITIONS, run));
    let hop = shape.settings.hop_size;
    let quiet = |place: usize| !is_loud(place / hop, run, phase);
    samples.iter_mut().enumerate().filter(|(place, _)| quiet(*place)).for_each(|(_, x)| *x *= factor);
    samples
}

/// Runs of every length from every phase of a block, over frames that overlap, touch or lie apart.
fn in_runs(seed: u64) -> Vec<Asked> {
    let small = Shape::new(8_000, (60, 72), 64, 64);
    let usual = Shape::new(44_100, NOTES, 4_096, 4_096);
    let every = (1..=LONGEST_RUN).flat_map(|run| (0..8).map(move |phase| (run, phase)));
    let of_small = every.flat_map(|runs| [32, 64, 80].map(|hop| (small.with_hop(hop), runs)));
    let of_usual = [1, 3, 7, 8, 9, 17].map(|run| (usual.clone(), (run, run % 5)));
    of_small
        .chain(of_usual)
        .map(|(shape, runs)| {
            let factor = QUIET[(runs.0 + runs.1) % QUIET.len()];
            shape.call("loud and quiet runs", quietened(&shape, seed, runs, factor))
        })
        .collect()
}

/// Sheets of few rows and of many, with long and short windows; the Rust has none for notes that are too high.
fn of_rows(seed: u64) -> Vec<Asked> {
    let few = [0, 1, 2, 3, 4, 5, 6, 7, 8, 9, 11, 12, 13, 16, 17, 31, 45].map(|rows: u8| {
        let notes = if rows == 0 { (120, 127) } else { (60, 59 + rows) };
        let shape = Shape::new(8_000, notes, 100, 61);
        let Sheet { goertzel_coefficients, constant_q_lengths, .. } = &*shape.sheet;
        assert_eq!([goertzel_coefficients.len(), constant_q_lengths.len()], [rows.into(); 2]);
        shape
    });
    let many = [(8_000, 256, 500), (44_100, 64, 48), (192_000, 300, 1_000)];
    let many = many.map(|(rate, frame_size, hop_size)| Shape::new(rate, (0, 255), frame_size, hop_size));
    few.iter().chain(&many).flat_map(|shape| shape.of_counts(seed, 8..=24)).collect()
}

/// Loud frames with gaps between them, and a spoilt sample in one gap, which windows alone reach; once all are loud,
/// once some are quiet.
fn spoilt_outside_frames(seed: u64) -> Vec<Asked> {
    let shape = Shape::new(8_000, (60, 95), 64, 80);
    let spoilt = |(gap, nth): (usize, usize), factor| {
        let mut samples = quietened(&shape, seed, (1 + nth, gap), factor);
        samples[gap * 80 + 64 + (gap + nth) % 16] = SPOILT[nth];
        shape.call("spoilt outside the frames", samples)
    };
    let places = (0..POSITIONS - 1).flat_map(|gap| (0..SPOILT.len()).map(move |nth| (gap, nth)));
    let calls: Vec<Asked> =
        places.flat_map(|place| [1.0, QUIET[1]].map(|factor| spoilt(place, factor))).collect();
    let found: Vec<usize> = broken(&calls).map(|position| position % 8).collect();
    assert!((0..8).all(|place| found.contains(&place)), "a place of a block is never the first not finite");
    calls
}

/// Loud frames that no other's window reaches, and one sample in each position's frame whose square is infinite.
fn spoilt_at_each_position(seed: u64) -> Vec<Asked> {
    let shape = Shape::new(8_000, (96, 105), 64, 80);
    let spoilt = |position: usize| {
        let mut samples = loud(seed, shape.length(BROKEN + position % 9, 7));
        samples[position * 80 + 20 + position] = 1e20;
        shape.call("spoilt at one position", samples)
    };
    let calls: Vec<Asked> = (0..BROKEN).map(spoilt).collect();
    assert!(broken(&calls).eq(0..BROKEN), "another position is the first that is not finite");
    calls
}

/// The positions that the oracle finds not finite.
fn broken(calls: &[Asked]) -> impl Iterator<Item = usize> {
    calls.iter().filter_map(|asked| heard(&asked.call).broken)
}

/// What both calls leave: frames only, and the whole analysis.
type Left = (frame_calls::Left, analysis_left::Left);

fn ours(asked: &Asked) -> Left {
    (frame_calls::ours(asked.call.clone()), analysis_left::ours(asked))
}

fn theirs(asked: &Asked) -> Left {
    (frames::theirs(asked.call.clone()), their_analyses::theirs(asked))
}

pub fn compare(groups: &mut Groups) {
    let seed = groups.seed;
    let kinds: [(&str, Vec<Asked>); 6] = [
        ("about the longest window", about_longest_window(seed)),
        ("every count of positions", every_count(seed)),
        ("loud and quiet runs", in_runs(seed)),
        ("few rows and many", of_rows(seed)),
        ("spoilt outside the frames", spoilt_outside_frames(seed)),
        ("spoilt at each position", spoilt_at_each_position(seed)),
    ];
    for (name, calls) in kinds {
        let name = format!("frames and analyses, {name}");
        groups.shared_group(&name, calls.len(), |nth| calls[nth].clone(), ours, theirs);
    }
}
