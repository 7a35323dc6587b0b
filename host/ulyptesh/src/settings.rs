//! The settings of an analysis.
use crate::calls::{Buffers, Sheet, SheetHead, analyse};
use crate::refusal::Refusal;

/// No larger frame is taken.
const LARGEST_FRAME: usize = 65_536;

/// What the library answers about a sheet without tables.
const NOT_WELL_FORMED: u32 = 7;

/// How the Goertzel magnitudes of a frame's notes are worked out, by number. Both engines give the same numbers, bit for
/// bit, so every answer is the same; only the time differs. Any other number is refused.
///
/// ```
/// use ulyptesh::{Engine, Settings};
/// let settings = Settings::for_rate(44_100).with(|settings| settings.engine = Engine::FOUR_AT_A_TIME);
/// assert!(settings.check().is_ok());
/// let refusal = settings.with(|settings| settings.engine = Engine(2)).check().unwrap_err();
/// assert_eq!(refusal.to_string(), "the engine, 2, is neither 0 nor 1 (refusal 13)");
/// ```
#[repr(transparent)]
#[derive(Debug, Clone, Copy, PartialEq, Eq)]
pub struct Engine(pub u32);

impl Engine {
    /// All notes side by side: the faster one.
    pub const SIDE_BY_SIDE: Self = Self(0);
    /// Four notes at a time, and the odd ones at the end singly, as in the Rust that was ported.
    pub const FOUR_AT_A_TIME: Self = Self(1);
}

/// What a call is asked: the track's rate, and how it is listened to.
///
/// ```
/// use ulyptesh::Settings;
/// let settings = Settings::for_rate(44_100).with(|settings| settings.minimum_segment_seconds = 8.0);
/// assert!(settings.check().is_ok());
/// assert!(settings.with(|settings| settings.local_hop_seconds = 0.25).check().is_err());
/// ```
#[repr(C)]
#[non_exhaustive]
#[derive(Debug, Clone, Copy, PartialEq)]
pub struct Settings {
    /// Samples a second, at most 192,000.
    pub rate: u32,
    /// Samples in a frame, 32 to 65,536.
    pub frame_size: usize,
    /// Samples from the start of a frame to the next one's, 1 to 1,048,576.
    pub hop_size: usize,
    /// The lowest note that is listened to.
    pub minimum_midi_note: u8,
    /// The highest note that is listened to.
    pub maximum_midi_note: u8,
    /// The length of a local window, above 0.
    pub local_window_seconds: f32,
    /// From the start of a window to the next one's, at least 0.5.
    pub local_hop_seconds: f32,
    /// The part of the track from which an alternate is named; at 0 or below none ever is.
    pub alternate_coverage_threshold: f32,
    /// The confidence from which a window of another key starts a segment.
    pub segment_confidence_threshold: f32,
    /// A shorter segment is joined to a neighbour.
    pub minimum_segment_seconds: f32,
    /// How the Goertzel magnitudes of a frame's notes are worked out; every answer is the same.
    pub engine: Engine,
}

impl Settings {
    /// The usual settings for tracks of this rate: frames of 4,096 samples every 2,048, notes 36 to 95, windows of
    /// 12 s every 6 s, an alternate from 0.25 of the track on, segments from a confidence of 0.35 and 12 s on, and
    /// the engine that takes all notes side by side.
    pub fn for_rate(rate: u32) -> Self {
        Self {
            rate,
            frame_size: 4_096,
            hop_size: 2_048,
            minimum_midi_note: 36,
            maximum_midi_note: 95,
            local_window_seconds: 12.0,
            local_hop_seconds: 6.0,
            alternate_coverage_threshold: 0.25,
            segment_confidence_threshold: 0.35,
            minimum_segment_seconds: 12.0,
            engine: Engine::SIDE_BY_SIDE,
        }
    }

    /// These settings, changed.
    pub fn with(mut self, change: impl FnOnce(&mut Self)) -> Self {
        change(&mut self);
        self
    }

    /// What a sheet for this call states.
    pub fn head(&self) -> SheetHead {
        let Self { rate, minimum_midi_note, maximum_midi_note, frame_size, .. } = *self;
        SheetHead { rate, minimum_midi_note, maximum_midi_note, frame_size }
    }

    /// Refuses settings with which no track can be analysed. The library itself is asked, about a silent frame and
    /// without tables: where nothing but the tables is wrong, tracks can be analysed.
    pub fn check(&self) -> Result<(), Refusal> {
        let silence = vec![0.0; self.frame_size.min(LARGEST_FRAME)];
        let told = analyse(*self, &Sheet::empty(self), &silence, &mut Buffers::default());
        match told.refusal {
            NOT_WELL_FORMED => Ok(()),
            number => Err(Refusal::new(number, 0, self, silence.len())),
        }
    }
}

#[cfg(test)]
mod tests {
    use super::*;
    use crate::calls::frames;

    const KNOWN: [Engine; 2] = [Engine::SIDE_BY_SIDE, Engine::FOUR_AT_A_TIME];
    const UNKNOWN: [Engine; 2] = [Engine(2), Engine(u32::MAX)];

    type Change = fn(&mut Settings);

    /// What is wrong with settings before their engine is, and its number.
    const JUDGED_BEFORE: [(u32, Change); 4] = [
        (1, |settings| settings.rate = 192_001),
        (2, |settings| settings.frame_size = 65_537),
        (2, |settings| settings.hop_size = 1_048_577),
        (3, |settings| settings.minimum_segment_seconds = f32::NAN),
    ];

    /// With what nothing is analysed.
    const NOTHING_ANALYSED: [Change; 7] = [
        |settings| settings.rate = 0,
        |settings| settings.frame_size = 31,
        |settings| settings.frame_size = SAMPLES + 1,
        |settings| settings.hop_size = 0,
        |settings| settings.minimum_midi_note = settings.maximum_midi_note + 1,
        |settings| settings.local_window_seconds = 0.0,
        |settings| settings.local_hop_seconds = 0.0,
    ];

    /// So many silent samples are some seconds at the usual rate.
    const SAMPLES: usize = 20_000;

    /// So many are a day at 1 Hz.
    const DAY: usize = 86_400;

    fn usual() -> Settings {
        Settings::for_rate(8_000)
    }

    fn by(engine: Engine, settings: Settings) -> Settings {
        settings.with(|settings| settings.engine = engine)
    }

    /// What analyse and frames say of so many silent samples, over a sheet and without rows.
    fn said_of(samples: usize, settings: Settings, sheet: &Sheet) -> [u32; 2] {
        let (silence, mut lent) = (vec![0.0; samples], Buffers::default());
        let analysed = analyse(settings, sheet, &silence, &mut lent);
        [analysed.refusal, frames(settings, sheet, &silence, &mut lent.frames).refusal]
    }

    fn said(settings: Settings, sheet: &Sheet) -> [u32; 2] {
        said_of(SAMPLES, settings, sheet)
    }

    /// A rate at which a day is short.
    fn slow(rate: u32) -> Settings {
        usual().with(|settings| (settings.rate, settings.frame_size) = (rate, 32))
    }

    /// Both calls say so of so many samples with each engine, and 13 with a number that is none.
    fn engine_comes_first_of(samples: usize, settings: Settings, sheet: &Sheet, expected: [u32; 2]) {
        for engine in KNOWN {
            assert_eq!(said_of(samples, by(engine, settings), sheet), expected, "{settings:?}");
        }
        for engine in UNKNOWN {
            assert_eq!(said_of(samples, by(engine, settings), sheet), [13, 13], "{settings:?}");
        }
    }

    fn engine_comes_first(settings: Settings, sheet: &Sheet, expected: [u32; 2]) {
        engine_comes_first_of(SAMPLES, settings, sheet, expected);
    }

    #[test]
    fn there_are_two_engines() {
        for engine in KNOWN {
            assert_eq!(by(engine, usual()).check(), Ok(()));
        }
        for engine in UNKNOWN {
            assert_eq!(by(engine, usual()).check(), Err(Refusal::UnknownEngine { engine }));
        }
    }

    #[test]
    fn engines_are_judged_after_3() {
        for (number, change) in JUDGED_BEFORE {
            let settings = usual().with(change);
            for engine in [KNOWN, UNKNOWN].concat() {
                assert_eq!(said(by(engine, settings), &Sheet::empty(&settings)), [number; 2], "{settings:?}");
            }
        }
    }

    #[test]
    fn engines_are_judged_before_nothing_is_analysed() {
        for change in NOTHING_ANALYSED {
            let settings = usual().with(change);
            engine_comes_first(settings, &Sheet::empty(&settings), [0, 0]);
        }
    }

    #[test]
    fn engines_are_judged_before_4_to_8() {
        let hasty = usual().with(|settings| settings.local_hop_seconds = 0.25);
        engine_comes_first_of(DAY + 1, slow(1), &Sheet::for_call(&slow(1)), [4, 4]);
        engine_comes_first(hasty, &Sheet::for_call(&hasty), [5, 8]);
        engine_comes_first(usual(), &Sheet::empty(&slow(1)), [6, 6]);
        engine_comes_first(usual(), &Sheet::empty(&usual()), [7, 7]);
        engine_comes_first(usual(), &Sheet::for_call(&usual()), [8, 8]);
    }

    #[test]
    fn no_track_is_longer_than_a_day() {
        for rate in [1, 2, 63] {
            let (settings, day) = (slow(rate), DAY * rate as usize);
            for (samples, expected) in [(day / 6 + 1, 8), (day - 1, 8), (day, 8), (day + 1, 4)] {
                let told = said_of(samples, settings, &Sheet::for_call(&settings));
                assert_eq!(told, [expected; 2], "{samples} at {rate} Hz");
            }
        }
    }

    #[test]
    fn the_largest_frame_is_on_a_track_at_any_rate() {
        let large = usual().with(|settings| (settings.rate, settings.frame_size) = (1, LARGEST_FRAME));
        assert_eq!(large.check(), Ok(()));
    }
}
