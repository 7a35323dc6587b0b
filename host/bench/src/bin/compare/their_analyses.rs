//! The oracle's side of a whole analysis: what is answered, and what every lent list holds afterwards.
use crate::analysis_calls::Asked;
use crate::analysis_left::{Left, keyless, refused, untouched};
use crate::estimate_lists::put_estimates;
use crate::frames::{Heard, heard, put_frames};
use crate::segments::{put_segments_of, their_estimates, their_shapeless};
use bench::oracle::config;
use bench::oracle::key_lime::KeyAnalysis;
use bench::oracle::key_lime::expose::{analysis_of_frames, key_number};
use bench::oracle::number;
use bench::oracle::shapes::is_shapeless;
use bench::probe::segments::Track;
use ulyptesh::calls::{AnalyseResult, Buffers};

fn with_key(told: &KeyAnalysis, frames: usize, estimates: usize) -> AnalyseResult {
    AnalyseResult {
        key: number(told.key),
        dsp_key: number(told.dsp_key),
        alternate: number(told.alternate_key),
        coverage: told.alternate_coverage,
        confidence: told.confidence,
        shapeless: is_shapeless(&told.chroma).into(),
        estimates: estimates as u64,
        segments: told.segments.len() as u64,
        chroma: told.chroma,
        ..keyless(0, 0, frames)
    }
}

/// What the oracle's `analyze` makes of the frames.
fn told(asked: &Asked, heard: &Heard) -> KeyAnalysis {
    let (settings, samples) = (&asked.call.settings, &asked.call.samples);
    let (frames, energies) = (heard.frames.clone(), heard.energies.clone());
    analysis_of_frames(samples, settings.rate, config(settings), frames, energies)
}

/// The oracle's analysis of a call that the table lets through; none where it stops at a frame or hears none.
pub fn their_analysis(asked: &Asked) -> Option<KeyAnalysis> {
    let heard = heard(&asked.call);
    (heard.broken.is_none() && !heard.frames.is_empty()).then(|| told(asked, &heard))
}

/// The track as its segments see it. Key and confidence count where there are no estimates: there is one segment then,
/// so those of the answer are the whole track's.
fn track_of(asked: &Asked, heard: &Heard, told: &KeyAnalysis) -> Track {
    let centres = heard.frames.iter().map(|frame| frame.center_seconds).collect();
    let values = heard.frames.iter().map(|frame| frame.values).collect();
    let key = told.key.map_or(0, key_number);
    Track { centres, values, key, confidence: told.confidence, ..asked.track() }
}

/// What the oracle answers and leaves behind the frames.
fn their_answer(asked: &Asked, lent: &mut Buffers) -> AnalyseResult {
    let heard = heard(&asked.call);
    let frames = heard.frames.len();
    put_frames(&heard, &mut lent.frames);
    if let Some(position) = heard.broken {
        return keyless(9, position, frames);
    }
    if frames == 0 {
        return keyless(0, 0, 0);
    }
    lent.work[..frames].fill(0.0);
    let told = told(asked, &heard);
    if told.key.is_none() {
        return keyless(0, 0, frames);
    }
    let track = track_of(asked, &heard, &told);
    let found = their_estimates(&track);
    put_estimates(&found, &their_shapeless(&track), &mut lent.estimates);
    put_segments_of(&track, &found, &told.segments, &mut lent.segments);
    with_key(&told, frames, found.len())
}

pub fn theirs(asked: &Asked) -> Left {
    if let Some(refusal) = asked.refusal() {
        return refused(asked, refusal);
    }
    let mut lent = untouched(asked);
    let answer = their_answer(asked, &mut lent);
    Left::wanted(answer, lent)
}
