//! Analyses one track after the other over memory and tables of its own.
use crate::calls::{self, AnalyseResult, Buffers, EstimateRows, SegmentRows, Sheet};
use crate::chroma::Chroma;
use crate::found::{Alternate, Analysis, Segment};
use crate::keys::Key;
use crate::refusal::Refusal;
use crate::settings::Settings;

/// A loud frame of a track.
#[non_exhaustive]
#[derive(Debug, Clone, Copy, PartialEq)]
pub struct LoudFrame {
    /// Its centre in seconds.
    pub centre: f64,
    /// Its chroma, finite.
    pub chroma: Chroma,
    /// Its energy, finite.
    pub energy: f32,
}

/// What one local window of a track tells.
#[non_exhaustive]
#[derive(Debug, Clone, Copy, PartialEq)]
pub struct Estimate {
    /// The middle of the window in seconds.
    pub middle: f64,
    /// The key that it tells.
    pub key: Key,
    /// How clearly, from 0 to 1.
    pub confidence: f32,
    /// Whether the window's chroma [has no shape](crate::is_shapeless), so that key and confidence say little.
    pub shapeless: bool,
}

/// What the library answers where it is lent fewer rows than a track needs.
const TOO_FEW_ROWS: u32 = 8;

/// Settings, and a sheet whose head is theirs.
#[derive(Debug, Clone)]
struct Tables {
    settings: Settings,
    sheet: Sheet,
}

impl Tables {
    /// No sheet is made for settings with which no track can be analysed.
    fn new(settings: Settings) -> Result<Self, Refusal> {
        settings.check()?;
        Ok(Self { settings, sheet: Sheet::for_call(&settings) })
    }

    /// The sheet stays where it is for the other settings too.
    fn set(&mut self, settings: Settings) -> Result<(), Refusal> {
        if settings.head() == self.sheet.head {
            settings.check()?;
            self.settings = settings;
        } else {
            *self = Self::new(settings)?;
        }
        Ok(())
    }
}

/// Owns what the library is lent, and uses it again from track to track.
///
/// The tables are made for its settings, and made anew where rate, notes or frame size change: no track meets another
/// rate's. Give each thread an analyzer of its own.
///
/// ```
/// # fn main() -> Result<(), Box<dyn std::error::Error>> {
/// let mut analyzer = ulyptesh::Analyzer::for_rate(8_000)?;
/// for pitch in [220.0, 440.0] {
///     let step = pitch / 8_000.0 * std::f32::consts::TAU;
///     let track: Vec<f32> = (0..40_000).map(|n| (n as f32 * step).sin()).collect();
///     let told = analyzer.analyse(&track)?;
///     println!("{:?}, a card of {} bytes", told.key, told.card()?.len());
/// }
/// # Ok(())
/// # }
/// ```
#[derive(Debug, Clone)]
pub struct Analyzer {
    tables: Tables,
    lent: Buffers,
    loud_frames: usize,
    estimates: usize,
}

impl Analyzer {
    /// For tracks of this rate, with the usual settings.
    pub fn for_rate(rate: u32) -> Result<Self, Refusal> {
        Self::new(Settings::for_rate(rate))
    }

    /// For tracks with these settings; refused where no track can be analysed with them.
    pub fn new(settings: Settings) -> Result<Self, Refusal> {
        Ok(Self { tables: Tables::new(settings)?, lent: Buffers::default(), loud_frames: 0, estimates: 0 })
    }

    /// The settings.
    pub fn settings(&self) -> &Settings {
        &self.tables.settings
    }

    /// Other settings from now on, with new tables where they need them; refused ones change nothing.
    pub fn set(&mut self, settings: Settings) -> Result<(), Refusal> {
        self.tables.set(settings)
    }

    /// Analyses a track: mono samples at the rate of the settings, of a day at most. Where there is no memory for its
    /// rows, it is refused with 8.
    pub fn analyse(&mut self, samples: &[f32]) -> Result<Analysis, Refusal> {
        let Tables { settings, sheet } = &self.tables;
        let mut told = calls::analyse(*settings, sheet, samples, &mut self.lent);
        if told.refusal == TOO_FEW_ROWS && self.lent.grow_for(settings, samples.len()).is_ok() {
            told = calls::analyse(*settings, sheet, samples, &mut self.lent);
        }
        (self.loud_frames, self.estimates) = (told.frames as usize, told.estimates as usize);
        match told.refusal {
            0 => Ok(found(&told, &self.lent, duration(settings, samples.len()))),
            number => Err(Refusal::new(number, told.position, settings, samples.len())),
        }
    }

    /// The loud frames of a track alone.
    pub fn frames<'a>(
        &'a mut self,
        samples: &[f32],
    ) -> Result<impl ExactSizeIterator<Item = LoudFrame> + use<'a>, Refusal> {
        let Tables { settings, sheet } = &self.tables;
        let mut told = calls::frames(*settings, sheet, samples, &mut self.lent.frames);
        if told.refusal == TOO_FEW_ROWS && self.lent.grow_frames_for(settings, samples.len()).is_ok() {
            told = calls::frames(*settings, sheet, samples, &mut self.lent.frames);
        }
        (self.loud_frames, self.estimates) = (told.count as usize, 0);
        match told.refusal {
            0 => Ok(self.loud_frames()),
            number => Err(Refusal::new(number, told.position, settings, samples.len())),
        }
    }

    /// The loud frames of the last track; where it was refused for a frame that is not finite, those before that one.
    pub fn loud_frames(&self) -> impl ExactSizeIterator<Item = LoudFrame> {
        let rows = &self.lent.frames;
        (0..self.loud_frames).map(|row| LoudFrame {
            centre: rows.centres[row],
            chroma: rows.values[row],
            energy: rows.energies[row],
        })
    }

    /// What the windows of the last track tell, in order; none where its frames alone were asked for.
    pub fn estimates(&self) -> impl ExactSizeIterator<Item = Estimate> {
        let rows = &self.lent.estimates;
        (0..self.estimates).map(|row| Estimate {
            middle: rows.middles[row],
            key: Key::try_from(rows.numbers[row]).expect("an estimate has a key"),
            confidence: rows.certainties[row],
            shapeless: rows.shapeless[row] != 0,
        })
    }
}

/// In seconds; the rate of settings that are not refused is above 0.
fn duration(settings: &Settings, samples: usize) -> f64 {
    samples as f64 / f64::from(settings.rate)
}

fn segment(rows: &SegmentRows, row: usize) -> Segment {
    Segment {
        start: rows.starts[row],
        end: rows.ends[row],
        key: Key::try_from(rows.keys[row]).expect("a segment has a key"),
        confidence: rows.confidences[row],
        windows: rows.counts[row],
    }
}

/// How many of the first windows have no shape.
fn shapeless_among(rows: &EstimateRows, count: usize) -> usize {
    rows.shapeless[..count].iter().filter(|&&shapeless| shapeless != 0).count()
}

fn found(told: &AnalyseResult, lent: &Buffers, duration: f64) -> Analysis {
    let key = |number: u32| Key::try_from(number).ok();
    let alternate = |key| Alternate { key, coverage: told.coverage };
    Analysis {
        key: key(told.key),
        dsp_key: key(told.dsp_key),
        alternate: key(told.alternate).map(alternate),
        confidence: told.confidence,
        shapeless: told.shapeless != 0,
        chroma: told.chroma,
        segments: (0..told.segments as usize).map(|row| segment(&lent.segments, row)).collect(),
        loud_frame_count: told.frames as usize,
        estimate_count: told.estimates as usize,
        shapeless_estimate_count: shapeless_among(&lent.estimates, told.estimates as usize),
        duration,
    }
}

#[cfg(test)]
mod tests {
    use super::*;
    use crate::settings::Engine;

    const RATE: u32 = 8_000;
    const FRAME: usize = 4_096;

    /// Frames and windows lie end to end: a sample is in one frame alone, and a frame's centre in one window.
    fn settings() -> Settings {
        Settings::for_rate(RATE).with(|settings| {
            settings.hop_size = FRAME;
            settings.local_window_seconds = 6.0;
            settings.local_hop_seconds = 6.0;
        })
    }

    fn analyzer() -> Analyzer {
        Analyzer::new(settings()).expect("settings that are taken")
    }

    /// With tables by which a click in the last sample of a frame is as strong in each of the twelve notes.
    fn even_analyzer() -> Analyzer {
        let octave = settings().with(|settings| {
            (settings.minimum_midi_note, settings.maximum_midi_note) = (60, 71);
        });
        let mut analyzer = Analyzer::new(octave).expect("settings that are taken");
        let sheet = &mut analyzer.tables.sheet;
        sheet.window.fill(1.0);
        sheet.goertzel_weights.fill(1.0);
        sheet.constant_q_lengths.clear();
        sheet.constant_q_coefficients.clear();
        sheet.constant_q_windows.clear();
        analyzer
    }

    fn tone(seconds: usize) -> Vec<f32> {
        let step = 440.0 / RATE as f32 * std::f32::consts::TAU;
        (0..seconds * RATE as usize).map(|at| (at as f32 * step).sin()).collect()
    }

    /// A click in each frame, so many samples behind its front. At the front itself a frame's window is 0, so that a
    /// frame is loud and has no note.
    fn clicks(seconds: usize, behind: usize) -> Vec<f32> {
        let click = |at: usize| if at % FRAME == behind { 1.0 } else { 0.0 };
        (0..seconds * RATE as usize).map(click).collect()
    }

    /// What is told of a track, and which of its windows have no shape.
    fn told_of(analyzer: &mut Analyzer, track: &[f32]) -> (Analysis, Vec<bool>) {
        let told = analyzer.analyse(track).expect("a track that is not refused");
        let marks = analyzer.estimates().map(|estimate| estimate.shapeless).collect();
        (told, marks)
    }

    /// A tone for twenty seconds, then clicks that have no note.
    fn tone_and_clicks() -> Vec<f32> {
        let mut track = clicks(36, 0);
        track[..20 * RATE as usize].copy_from_slice(&tone(20));
        track
    }

    /// All that is told of a track, each number in as many digits as tell it from all others.
    fn all_told_of(settings: Settings, track: &[f32]) -> String {
        let mut analyzer = Analyzer::new(settings).expect("settings that are taken");
        let (told, _) = told_of(&mut analyzer, track);
        let estimates: Vec<Estimate> = analyzer.estimates().collect();
        let frames: Vec<LoudFrame> = analyzer.frames(track).expect("the same track").collect();
        assert!(told.key.is_some() && !estimates.is_empty() && !frames.is_empty(), "{told:?}");
        format!("{told:?} {estimates:?} {frames:?}")
    }

    #[test]
    fn a_day_is_analysed_and_a_sample_more_is_not() {
        let slow = Settings::for_rate(2).with(|settings| settings.frame_size = 32);
        let mut analyzer = Analyzer::new(slow).expect("settings that are taken");
        let told = analyzer.analyse(&vec![0.0; 172_800]).expect("a day");
        assert_eq!((told.duration, told.key), (86_400.0, None));
        let why = analyzer.analyse(&vec![0.0; 172_801]).expect_err("more than a day");
        assert_eq!(why.to_string(), "172801 samples at 2 Hz are more than 24 hours (refusal 4)");
        assert_eq!(analyzer.frames(&vec![0.0; 172_801]).err(), Some(why));
    }

    #[test]
    fn both_engines_tell_the_same() {
        let track = tone_and_clicks();
        // one note to nine, and 27: batches of four, with up to three odd notes behind them
        for highest in (69..=77).chain([95]) {
            let told_by = |engine| {
                let change = |settings: &mut Settings| {
                    (settings.minimum_midi_note, settings.maximum_midi_note) = (69, highest);
                    settings.engine = engine;
                };
                all_told_of(settings().with(change), &track)
            };
            let same = told_by(Engine::SIDE_BY_SIDE) == told_by(Engine::FOUR_AT_A_TIME);
            assert!(same, "notes 69 to {highest}");
        }
    }

    #[test]
    fn a_refused_engine_changes_nothing() {
        let mut analyzer = analyzer();
        let told = analyzer.set(settings().with(|settings| settings.engine = Engine(2)));
        assert_eq!(told.map_err(|why| why.number()), Err(13));
        assert_eq!(*analyzer.settings(), settings());
    }

    #[test]
    fn windows_without_a_note_have_no_shape() {
        let (told, marks) = told_of(&mut analyzer(), &tone_and_clicks());
        assert_eq!(marks, [false, false, false, false, true, true]);
        assert_eq!((told.estimate_count, told.shapeless_estimate_count, told.shapeless), (6, 2, false));
    }

    /// How many windows stand behind each segment of a track, with those shorter than this joined, and its estimates.
    fn windows_behind(minimum: f32, track: &[f32]) -> (Vec<u32>, usize) {
        let settings = settings().with(|settings| {
            settings.minimum_segment_seconds = minimum;
            settings.segment_confidence_threshold = 0.0;
        });
        let (told, _) = told_of(&mut Analyzer::new(settings).expect("settings that are taken"), track);
        (told.segments.iter().map(|segment| segment.windows).collect(), told.estimate_count)
    }

    #[test]
    fn the_windows_behind_all_segments_are_the_estimates() {
        for minimum in [0.0, 7.0, 13.0, 1e9] {
            let (windows, estimates) = windows_behind(minimum, &tone_and_clicks());
            assert_eq!((windows.iter().sum::<u32>(), estimates), (6, 6), "at least {minimum} s: {windows:?}");
        }
    }

    #[test]
    fn joining_adds_the_windows() {
        let (apart, _) = windows_behind(0.0, &tone_and_clicks());
        assert!(apart.len() > 1 && !apart.contains(&0), "{apart:?}");
        assert_eq!(windows_behind(1e9, &tone_and_clicks()), (vec![6], 6));
    }

    #[test]
    fn no_window_stands_behind_a_brief_track() {
        assert_eq!(windows_behind(0.0, &tone(11)), (vec![0], 0));
    }

    #[test]
    fn what_an_earlier_track_left_does_not_count() {
        let mut analyzer = analyzer();
        told_of(&mut analyzer, &tone_and_clicks());
        let (told, marks) = told_of(&mut analyzer, &tone(12));
        assert_eq!((marks, told.shapeless_estimate_count), (vec![false; 2], 0));
    }

    #[test]
    fn a_track_without_a_key_is_not_shapeless() {
        let (told, marks) = told_of(&mut analyzer(), &clicks(36, 0));
        assert!(told.loud_frame_count > 0, "clicks are loud");
        assert_eq!((told.key, told.shapeless, told.shapeless_estimate_count), (None, false, 0));
        assert!(marks.is_empty(), "{marks:?}");
    }

    #[test]
    fn an_even_track_is_shapeless_in_all_its_windows() {
        let (told, marks) = told_of(&mut even_analyzer(), &clicks(36, FRAME - 1));
        assert_eq!((told.key.is_some(), told.shapeless, told.shapeless_estimate_count), (true, true, 6));
        assert_eq!(marks, [true; 6]);
    }

    #[test]
    fn a_brief_even_track_is_shapeless_without_a_window() {
        let (told, marks) = told_of(&mut even_analyzer(), &clicks(11, FRAME - 1));
        assert_eq!((told.shapeless, told.estimate_count, told.shapeless_estimate_count), (true, 0, 0));
        assert!(marks.is_empty(), "{marks:?}");
    }
}
