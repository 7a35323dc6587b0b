//! Calls for a whole analysis, and the request's check table over them.
use crate::frame_calls;
use crate::groups::Compared;
use crate::track_length::Length;
use crate::windows::rows_asked;
use bench::probe::segments::Track;
use std::sync::Arc;
use ulyptesh::calls::{Sheet, frame_positions, windows};
use ulyptesh::{Engine, Settings};

/// A call for frames with the lengths of their rows, and of the rest that is lent: work numbers, four lists for
/// estimates, five for segments.
#[derive(Clone)]
pub struct Asked {
    pub call: frame_calls::Asked,
    pub work: usize,
    pub rows: [usize; 9],
}

/// The front of the table, which has one check more than that for frames.
pub fn refusal_of(settings: &Settings, samples: usize) -> Option<u32> {
    let hop_too_short = settings.local_hop_seconds < 0.5;
    frame_calls::refusal_of(settings, samples).or(hop_too_short.then_some(5))
}

impl Asked {
    /// A call that is lent as much as the wrapper tells.
    pub fn new(what: &'static str, settings: Settings, sheet: &Arc<Sheet>, samples: Vec<f32>) -> Self {
        let positions = frame_positions(&settings, samples.len());
        let rows = [windows(&settings, samples.len()); 9];
        let (sheet, room) = (Arc::clone(sheet), [positions; 3]);
        Self { call: frame_calls::Asked { what, settings, sheet, samples, room }, work: positions, rows }
    }

    /// The same call by this engine.
    pub fn by(mut self, engine: Engine) -> Self {
        self.call.settings.engine = engine;
        self
    }

    /// The track as its segments see it, before any frame is heard.
    pub fn track(&self) -> Track {
        let (settings, samples) = (self.call.settings, self.call.samples.len());
        Track { settings, samples, key: 0, confidence: 0.0, centres: vec![], values: vec![] }
    }

    pub fn length(&self) -> Length {
        Length { rate: self.call.settings.rate, samples: self.call.samples.len() as u64 }
    }

    fn lacks_room(&self) -> bool {
        let Settings { frame_size, hop_size, .. } = self.call.settings;
        let windows = rows_asked(&self.track());
        self.work < (self.call.samples.len() - frame_size) / hop_size + 1
            || self.rows.iter().any(|&lent| lent < windows)
    }

    /// The number of the first check that applies, and 0 for the empty answer; none where the run begins.
    pub fn refusal(&self) -> Option<u32> {
        refusal_of(&self.call.settings, self.call.samples.len())
            .or_else(|| self.call.refusal())
            .or_else(|| self.lacks_room().then_some(8))
    }

    /// The lengths of all that is lent, from frame rows to segments.
    pub fn lent_mut(&mut self) -> impl Iterator<Item = &mut usize> {
        self.call.room.iter_mut().chain([&mut self.work]).chain(&mut self.rows)
    }

    /// One number from every bit that is lent to be read: a change of one value changes it.
    pub fn imprint(&self) -> u64 {
        let sheet = &self.call.sheet;
        let floats = [
            &self.call.samples,
            &sheet.window,
            &sheet.goertzel_coefficients,
            &sheet.goertzel_weights,
            &sheet.constant_q_coefficients,
            &sheet.constant_q_windows,
        ];
        let bits = floats.into_iter().flatten().map(|x| x.to_bits()).chain(sheet.constant_q_lengths.clone());
        bits.fold(0, |sum, bits| (sum ^ u64::from(bits)).wrapping_mul(0x9e37_79b9_7f4a_7c15).rotate_left(29))
    }
}

impl Compared for Asked {
    fn same(&self, other: &Self) -> bool {
        self.call.same(&other.call) && self.work == other.work && self.rows == other.rows
    }

    fn shown(&self) -> String {
        format!("{}, room {:?}, {}, {:?}", self.call.shown(), self.call.room, self.work, self.rows)
    }
}
