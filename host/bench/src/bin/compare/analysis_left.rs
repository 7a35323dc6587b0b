//! What a whole analysis leaves: its answer, what every lent list holds afterwards, and the card that is made of it.
use crate::analyses::Told;
use crate::analysis_calls::Asked;
use crate::both_engines::{self, by_both};
use crate::card_rounds::{self, Round};
use crate::groups::Compared;
use crate::rows::windows_in_all;
use ulyptesh::Settings;
use ulyptesh::calls::{AnalyseResult, Buffers, EstimateRows, FrameRows, NO_KEY, SegmentRows, analyse};

/// What the call answers, what it leaves in all that it was lent to write, whether all else stayed, its card, written
/// and read, where the call is not refused, whether no end on it lies after the audio, whether the windows behind its
/// segments are in all as many as its estimates, and what the other engine leaves where that is something else.
#[derive(Debug)]
pub struct Left {
    pub answer: AnalyseResult,
    lent: Buffers,
    stayed: bool,
    card: Option<Round>,
    pub inside: bool,
    windows_add_up: bool,
    pub other: Option<String>,
}

/// What a card is written from.
fn told(answer: &AnalyseResult, segments: &SegmentRows) -> Told {
    let count = answer.segments as usize;
    Told {
        key: answer.key,
        dsp_key: answer.dsp_key,
        alternate: answer.alternate,
        coverage: answer.coverage,
        confidence: answer.confidence,
        starts: segments.starts[..count].to_vec(),
        ends: segments.ends[..count].to_vec(),
        keys: segments.keys[..count].to_vec(),
        confidences: segments.confidences[..count].to_vec(),
        lent: 0,
    }
}

impl Left {
    /// As is wanted: all else stayed, no end after the audio, as many windows as estimates, the same by either engine;
    /// `ours` puts what it saw in their place.
    fn new(answer: AnalyseResult, lent: Buffers, round: fn(&Told) -> Round) -> Self {
        let card = (answer.refusal == 0).then(|| round(&told(&answer, &lent.segments)));
        Self { answer, lent, stayed: true, card, inside: true, windows_add_up: true, other: None }
    }

    /// What a call has to leave, by the oracle or the request's words.
    pub fn wanted(answer: AnalyseResult, lent: Buffers) -> Self {
        Self::new(answer, lent, card_rounds::theirs)
    }

    /// The ends of its segments, in seconds.
    pub fn times(&self) -> &[f64] {
        &self.lent.segments.ends[..self.answer.segments as usize]
    }

    /// Which of its estimates are without shape: 1 or 0 each.
    #[cfg(oracle)]
    pub fn shapeless(&self) -> &[u8] {
        &self.lent.estimates.shapeless[..self.answer.estimates as usize]
    }

    /// How many windows stand behind each of its segments.
    pub fn windows(&self) -> &[u32] {
        &self.lent.segments.counts[..self.answer.segments as usize]
    }

    /// The middles of its estimates, in seconds.
    pub fn middles(&self) -> &[f64] {
        &self.lent.estimates.middles[..self.answer.estimates as usize]
    }

    /// The ends that are read on its card, in milliseconds.
    pub fn ends(&self) -> &[u32] {
        self.card.as_ref().map_or(&[], card_rounds::ends)
    }
}

impl Compared for AnalyseResult {
    fn same(&self, other: &Self) -> bool {
        let numbers = |r: &Self| [r.refusal, r.key, r.dsp_key, r.alternate, r.shapeless];
        let counts = |r: &Self| [r.position, r.frames, r.estimates, r.segments];
        numbers(self) == numbers(other)
            && counts(self) == counts(other)
            && self.coverage.same(&other.coverage)
            && self.confidence.same(&other.confidence)
            && self.chroma.same(&other.chroma)
    }

    fn shown(&self) -> String {
        format!("{self:?}")
    }
}

impl Compared for Left {
    fn same(&self, other: &Self) -> bool {
        let (one, another) = (&self.lent, &other.lent);
        self.answer.same(&other.answer)
            && self.stayed == other.stayed
            && one.frames.same(&another.frames)
            && one.work.same(&another.work)
            && one.estimates.same(&another.estimates)
            && one.segments.same(&another.segments)
            && self.card.same(&other.card)
            && self.inside == other.inside
            && self.windows_add_up == other.windows_add_up
            && self.other == other.other
    }

    fn shown(&self) -> String {
        let Buffers { frames, work, estimates, segments } = &self.lent;
        let (middles, shapeless) = (estimates.middles.shown(), estimates.shapeless.shown());
        let (ends, counts) = (segments.ends.shown(), segments.counts.shown());
        let lists = [frames.energies.shown(), work.shown(), middles, shapeless, ends, counts];
        let stayed = if self.stayed { "" } else { ", samples or sheet changed" };
        let inside = if self.inside { "" } else { ", an end after the audio" };
        let add_up = if self.windows_add_up { "" } else { ", not as many windows as estimates" };
        let (answer, lists, card) = (self.answer.shown(), lists.join("; "), self.card.shown());
        let other = both_engines::shown(self.other.as_ref());
        format!(
            "{answer}{stayed}{add_up}; energies, work, middles, shapeless, ends, counts: {lists}; \
             card: {card}{inside}{other}"
        )
    }
}

/// A number for each place, so that a row that moved is seen.
fn marked<A>(length: usize, mark: impl Fn(f32) -> A) -> Vec<A> {
    (0..length).map(|place| mark(-7.25 - place as f32)).collect()
}

fn marked_bytes(length: usize) -> Vec<u8> {
    (0..length).map(|place| 100 + (place % 101) as u8).collect()
}

fn marked_counts(length: usize) -> Vec<u32> {
    (0..length).map(|place| 0xa000_0000 + place as u32).collect()
}

/// What is lent, before the call.
pub fn untouched(asked: &Asked) -> Buffers {
    let [centres, values, energies] = asked.call.room;
    let [middles, numbers, certainties, shapeless, starts, ends, keys, confidences, counts] = asked.rows;
    let same = |x: f32| x;
    Buffers {
        frames: FrameRows {
            centres: marked(centres, f64::from),
            values: marked(values, |x| [x; 12]),
            energies: marked(energies, same),
        },
        work: marked(asked.work, same),
        estimates: EstimateRows {
            middles: marked(middles, f64::from),
            numbers: marked_bytes(numbers),
            certainties: marked(certainties, same),
            shapeless: marked_bytes(shapeless),
        },
        segments: SegmentRows {
            starts: marked(starts, f64::from),
            ends: marked(ends, f64::from),
            keys: marked_bytes(keys),
            confidences: marked(confidences, same),
            counts: marked_counts(counts),
        },
    }
}

/// The call as it is asked, and by the other engine.
pub fn ours(asked: &Asked) -> Left {
    let (left, other) = by_both(asked.call.settings, |settings| left_by(asked, settings));
    Left { other, ..left }
}

/// With these settings in place of the call's own.
fn left_by(asked: &Asked, settings: Settings) -> Left {
    let (before, mut lent) = (asked.imprint(), untouched(asked));
    let answer = analyse(settings, &asked.call.sheet, &asked.call.samples, &mut lent);
    let left = Left::new(answer, lent, card_rounds::ours);
    let inside = left.ends().iter().all(|&end| asked.length().reaches(end.into()));
    let (segments, estimates) = (left.answer.segments as usize, left.answer.estimates);
    let windows_add_up = windows_in_all(&left.lent.segments, segments) == estimates;
    Left { stayed: asked.imprint() == before, inside, windows_add_up, ..left }
}

/// An answer without a key: a refusal, or the empty analysis.
pub fn keyless(refusal: u32, position: usize, frames: usize) -> AnalyseResult {
    AnalyseResult {
        refusal,
        position: position as u64,
        key: NO_KEY,
        dsp_key: NO_KEY,
        alternate: NO_KEY,
        coverage: 0.0,
        confidence: 0.0,
        shapeless: 0,
        frames: frames as u64,
        estimates: 0,
        segments: 0,
        chroma: [0.0; 12],
    }
}

/// What a call leaves that the table refuses, or answers at once.
pub fn refused(asked: &Asked, refusal: u32) -> Left {
    Left::wanted(keyless(refusal, 0, 0), untouched(asked))
}
