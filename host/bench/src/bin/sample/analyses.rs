//! Whole analyses: a sheet that serves all tracks, and a record for each.
//!
//! The sheet: its head, the frame window, coefficients and weights of the Goertzel rows, lengths, coefficients and
//! joined windows of the constant-Q rows. A record: the settings, of which the engine is the last, the samples, the
//! answer's nine whole numbers (refusal, position, key, DSP key, alternate, the counts of frames, estimates and
//! segments, and 1 where the track's chroma has no shape), its values and its chroma, then all that is left in rows that
//! were zero: frames and work numbers, estimates (middles, keys, confidences, and 1 for each without shape), segments
//! (starts, ends, keys, confidences, and the windows behind each). A number of 64 bits has its lower half first.
use crate::patterns::pattern;
use crate::tracks::{Asked, FRAME_SIZE, NOTES, RATE, every_track};
use bench::oracle::key_lime::expose::{
    ConstantQ, Estimate, Goertzel, estimated_chromas, estimates, frame_chroma_sequence, hanning_window,
    key_number,
};
use bench::oracle::key_lime::{ChromaFrame, KeyAnalysis, KeyConfig, KeySegment, analyze};
use bench::oracle::number;
use bench::oracle::shapes::is_shapeless;
use bench::oracle::windows_behind::{cutting_by, groups, joined};
use ulyptesh::calls::NO_KEY;

/// The rows that each call is lent.
const FRAMES: usize = 8;
const ESTIMATES: usize = 5;
const SEGMENTS: usize = 5;

/// What the library has to answer, and what it has to leave in its rows.
#[derive(Default)]
struct Outcome {
    refusal: u32,
    position: usize,
    frames: Vec<ChromaFrame>,
    energies: Vec<f32>,
    estimates: Vec<Estimate>,
    shapeless: Vec<bool>,
    analysis: Option<KeyAnalysis>,
    windows: Vec<u32>,
}

fn patterns(values: &[f32]) -> Vec<u32> {
    values.iter().map(pattern).collect()
}

/// The two halves of a time's pattern, the lower one first.
fn halves(time: f64) -> [u32; 2] {
    let pattern = if time.is_nan() { 0x7ff8_0000_0000_0000 } else { time.to_bits() };
    [pattern as u32, (pattern >> 32) as u32]
}

/// The numbers of each item, then zeros for the rows that are left.
fn column<A, const N: usize>(items: &[A], room: usize, numbers: impl Fn(&A) -> [u32; N]) -> Vec<u32> {
    assert!(items.len() <= room, "too few rows");
    let mut column: Vec<u32> = items.iter().flat_map(numbers).collect();
    column.resize(room * N, 0);
    column
}

fn sheet() -> Vec<u32> {
    let (lowest, highest) = NOTES;
    let config = KeyConfig { minimum_midi_note: lowest, maximum_midi_note: highest, ..KeyConfig::default() };
    let goertzel = Goertzel::new(RATE, config).rows();
    let constant_q = ConstantQ::new(RATE, lowest, highest).rows();
    let mut sheet = vec![RATE, lowest.into(), highest.into(), FRAME_SIZE as u32];
    sheet.extend(patterns(&hanning_window(FRAME_SIZE)));
    sheet.extend(goertzel.iter().map(|row| pattern(&row.coefficient)));
    sheet.extend(goertzel.iter().map(|row| pattern(&row.weight)));
    sheet.extend(constant_q.iter().map(|row| row.2 as u32));
    sheet.extend(constant_q.iter().map(|row| pattern(&row.3)));
    sheet.extend(constant_q.iter().flat_map(|row| patterns(&row.4)));
    sheet
}

fn settings(asked: &Asked) -> Vec<u32> {
    let c = &asked.config;
    let lowest = c.minimum_midi_note.into();
    let mut settings =
        vec![asked.rate, c.frame_size as u32, c.hop_size as u32, lowest, c.maximum_midi_note.into()];
    settings.extend(patterns(&[
        c.local_window_seconds,
        c.local_hop_seconds,
        c.alternate_coverage_threshold,
        c.segment_confidence_threshold,
        c.minimum_segment_seconds,
    ]));
    settings.push(asked.engine.0);
    settings
}

/// The request's checks that some track meets: no such engine, a hop below half a second, another rate, too few rows.
fn refusal(asked: &Asked) -> Option<u32> {
    let positions = (asked.samples.len() - FRAME_SIZE) / asked.config.hop_size + 1;
    let checks = [
        (13, ![0, 1].contains(&asked.engine.0)),
        (5, asked.config.local_hop_seconds < 0.5),
        (6, asked.rate != RATE),
        (8, positions > FRAMES),
    ];
    checks.into_iter().find(|(_, applies)| *applies).map(|(number, _)| number)
}

/// The position of a loud frame, by how many are loud before it.
fn position(asked: &Asked, nth: usize) -> usize {
    let energy = |frame: &[f32]| {
        frame.iter().filter(|x| x.is_finite()).map(|x| x * x).sum::<f32>() / FRAME_SIZE as f32
    };
    let frames = asked.samples.windows(FRAME_SIZE).step_by(asked.config.hop_size).enumerate();
    let mut loud = frames.filter(|(_, frame)| energy(frame) > 1.0e-8).map(|(position, _)| position);
    loud.nth(nth).expect("so many frames are loud")
}

fn duration(asked: &Asked) -> f64 {
    asked.samples.len() as f64 / f64::from(asked.rate)
}

/// The estimates, and whether the chroma of each has no shape.
fn found_estimates(asked: &Asked, frames: &[ChromaFrame]) -> (Vec<Estimate>, Vec<bool>) {
    let (c, duration) = (asked.config, duration(asked));
    if duration < f64::from(c.local_window_seconds) + f64::from(c.local_hop_seconds) {
        return Default::default();
    }
    let chromas = estimated_chromas(frames, duration, c);
    (estimates(frames, duration, c), chromas.iter().map(is_shapeless).collect())
}

/// How many windows stand behind each segment of an analysis with a key, which is its one segment's where there are no
/// estimates.
fn windows_behind(asked: &Asked, analysis: &KeyAnalysis, estimates: &[Estimate]) -> Vec<u32> {
    let key = analysis.key.map_or(0, key_number);
    let cutting = cutting_by(&asked.config, duration(asked), key, analysis.confidence);
    let counted = joined(&groups(cutting, estimates), cutting.minimum, &analysis.segments);
    counted.iter().map(|counted| counted.windows).collect()
}

/// The request's checks, then the oracle's frames up to the first that is not finite, then its analysis.
fn outcome(asked: &Asked) -> Outcome {
    if let Some(refusal) = refusal(asked) {
        return Outcome { refusal, ..Outcome::default() };
    }
    let found = frame_chroma_sequence(&asked.samples, asked.rate, asked.config);
    let (mut frames, mut energies) = found.unwrap_or_default();
    let whole = |at: &usize| energies[*at].is_finite() && frames[*at].values.iter().all(|x| x.is_finite());
    let good = (0..frames.len()).take_while(whole).count();
    if good < frames.len() {
        let position = position(asked, good);
        frames.truncate(good);
        energies.truncate(good);
        return Outcome { refusal: 9, position, frames, energies, ..Outcome::default() };
    }
    let analysis = analyze(&asked.samples, asked.rate, asked.config);
    let has_key = analysis.key.is_some();
    let (estimates, shapeless) = if has_key { found_estimates(asked, &frames) } else { Default::default() };
    let windows = if has_key { windows_behind(asked, &analysis, &estimates) } else { vec![] };
    let analysis = Some(analysis);
    Outcome { frames, energies, estimates, shapeless, analysis, windows, ..Outcome::default() }
}

impl Outcome {
    fn segments(&self) -> &[KeySegment] {
        self.analysis.as_ref().map_or(&[], |analysis| &analysis.segments)
    }

    fn keys(&self) -> [u32; 3] {
        let keys = |a: &KeyAnalysis| [a.key, a.dsp_key, a.alternate_key].map(number);
        self.analysis.as_ref().map_or([NO_KEY; 3], keys)
    }

    /// Whether the track's chroma has no shape; not without a key.
    fn is_shapeless(&self) -> bool {
        self.analysis.as_ref().is_some_and(|a| a.key.is_some() && is_shapeless(&a.chroma))
    }

    fn answer(&self) -> Vec<u32> {
        let mut answer = vec![self.refusal, self.position as u32];
        answer.extend(self.keys());
        answer.extend(
            [self.frames.len(), self.estimates.len(), self.segments().len()].map(|count| count as u32),
        );
        answer.push(self.is_shapeless().into());
        let values = |a: &KeyAnalysis| [&[a.alternate_coverage, a.confidence][..], &a.chroma[..]].concat();
        answer.extend(patterns(&self.analysis.as_ref().map_or(vec![0.0; 14], values)));
        answer
    }

    fn rows(&self) -> Vec<u32> {
        let segments = self.segments();
        [
            column(&self.frames, FRAMES, |f| halves(f.center_seconds)),
            column(&self.frames, FRAMES, |f| f.values.each_ref().map(pattern)),
            column(&self.energies, FRAMES, |e| [pattern(e)]),
            vec![0; FRAMES],
            column(&self.estimates, ESTIMATES, |e| halves(e.0)),
            column(&self.estimates, ESTIMATES, |e| [key_number(e.1).into()]),
            column(&self.estimates, ESTIMATES, |e| [pattern(&e.2)]),
            column(&self.shapeless, ESTIMATES, |&shapeless| [shapeless.into()]),
            column(segments, SEGMENTS, |s| halves(s.start_seconds)),
            column(segments, SEGMENTS, |s| halves(s.end_seconds)),
            column(segments, SEGMENTS, |s| [key_number(s.key).into()]),
            column(segments, SEGMENTS, |s| [pattern(&s.confidence)]),
            column(&self.windows, SEGMENTS, |&windows| [windows]),
        ]
        .concat()
    }
}

/// The record of one track, which is named as it stands in the sample.
fn record(asked: Asked) -> Vec<u32> {
    let outcome = outcome(&asked);
    let [key, _, alternate] = outcome.keys();
    let counts = [outcome.frames.len(), outcome.estimates.len(), outcome.segments().len()];
    let shapeless = (outcome.is_shapeless(), outcome.shapeless.iter().filter(|&&told| told).count());
    let (what, engine, refusal, windows) = (asked.what, asked.engine.0, outcome.refusal, &outcome.windows);
    println!(
        "1 record: {what}: engine {engine}, refusal {refusal}, key {key}, alternate {alternate}, rows {counts:?}, \
         shapeless {shapeless:?}, windows {windows:?}"
    );
    [settings(&asked), patterns(&asked.samples), outcome.answer(), outcome.rows()].concat()
}

pub fn sample() -> Vec<u32> {
    sheet().into_iter().chain(every_track().flat_map(record)).collect()
}
