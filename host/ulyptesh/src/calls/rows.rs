//! What the calls are lent to write, and how much a track needs.
use super::{LONGEST_TRACK_SECONDS, PITCH_CLASSES};
use crate::settings::Settings;
use std::collections::TryReserveError;

/// Rows for frames. The shortest list is the room.
#[derive(Debug, Clone, Default, PartialEq)]
pub struct FrameRows {
    /// A frame's centre in seconds.
    pub centres: Vec<f64>,
    /// Its chroma.
    pub values: Vec<[f32; PITCH_CLASSES]>,
    /// Its energy.
    pub energies: Vec<f32>,
}

/// Rows for estimates. The shortest list is the room.
#[derive(Debug, Clone, Default, PartialEq)]
pub struct EstimateRows {
    /// A window's middle in seconds.
    pub middles: Vec<f64>,
    /// The number of the key that it tells.
    pub numbers: Vec<u8>,
    /// The confidence in it.
    pub certainties: Vec<f32>,
    /// 1 where the window's chroma has no shape, else 0.
    pub shapeless: Vec<u8>,
}

/// Rows for segments. The shortest list is the room.
#[derive(Debug, Clone, Default, PartialEq)]
pub struct SegmentRows {
    /// Where a segment starts, in seconds.
    pub starts: Vec<f64>,
    /// Where it ends, in seconds.
    pub ends: Vec<f64>,
    /// The number of its key.
    pub keys: Vec<u8>,
    /// The confidence in it.
    pub confidences: Vec<f32>,
    /// How many windows' estimates it rests on.
    pub counts: Vec<u32>,
}

/// Two windows a second of the longest track, and one: no track that is analysed has more.
const MOST_WINDOWS: usize = 2 * LONGEST_TRACK_SECONDS + 1;

/// How many frames fit into a track: so many frame rows and work numbers are asked for.
pub fn frame_positions(settings: &Settings, samples: usize) -> usize {
    let Settings { frame_size, hop_size, .. } = *settings;
    let behind_first = samples.checked_sub(frame_size);
    behind_first.and_then(|samples| samples.checked_div(hop_size)).map_or(0, |hops| hops.saturating_add(1))
}

/// How many estimates and segments are asked for: one for each local window, or one where the track is shorter than
/// window and hop.
pub fn windows(settings: &Settings, samples: usize) -> usize {
    let (window, hop): (f64, f64) = (settings.local_window_seconds.into(), settings.local_hop_seconds.into());
    let duration = samples as f64 / f64::from(settings.rate);
    if duration < window + hop {
        return 1;
    }
    let starts = std::iter::successors(Some(0.0), |start| Some(start + hop));
    starts.take(MOST_WINDOWS).take_while(|start| start + window <= duration).count()
}

/// What an analysis is lent to write. The shortest list of a kind is its room.
#[derive(Debug, Clone, Default, PartialEq)]
pub struct Buffers {
    /// A row for each frame position.
    pub frames: FrameRows,
    /// A number for each frame position, to work with.
    pub work: Vec<f32>,
    /// A row for each window.
    pub estimates: EstimateRows,
    /// A row for each window.
    pub segments: SegmentRows,
}

/// Zeros are added up to this length, where there is memory for them.
fn grow<A: Clone + Default>(list: &mut Vec<A>, length: usize) -> Result<(), TryReserveError> {
    list.try_reserve_exact(length.saturating_sub(list.len()))?;
    list.resize(list.len().max(length), A::default());
    Ok(())
}

impl FrameRows {
    /// The largest list first.
    fn grow_to(&mut self, positions: usize) -> Result<(), TryReserveError> {
        grow(&mut self.values, positions)?;
        grow(&mut self.centres, positions)?;
        grow(&mut self.energies, positions)
    }
}

impl Buffers {
    /// Zeros, as many as a track of so many samples needs.
    ///
    /// # Panics
    /// Where so much memory can't be had.
    pub fn for_track(settings: &Settings, samples: usize) -> Self {
        let mut lent = Self::default();
        lent.grow_for(settings, samples).expect("memory for the track's rows");
        lent
    }

    /// At least as many as a track of so many samples needs; what is there stays. Where so much memory can't be had,
    /// nothing is left.
    pub fn grow_for(&mut self, settings: &Settings, samples: usize) -> Result<(), TryReserveError> {
        let grown = self.grow_to(frame_positions(settings, samples), windows(settings, samples));
        self.or_nothing(grown)
    }

    /// The same of the frame rows alone.
    pub fn grow_frames_for(&mut self, settings: &Settings, samples: usize) -> Result<(), TryReserveError> {
        let grown = self.frames.grow_to(frame_positions(settings, samples));
        self.or_nothing(grown)
    }

    /// Memory that does not suffice is given back.
    fn or_nothing(&mut self, grown: Result<(), TryReserveError>) -> Result<(), TryReserveError> {
        if grown.is_err() {
            *self = Self::default();
        }
        grown
    }

    fn grow_to(&mut self, positions: usize, windows: usize) -> Result<(), TryReserveError> {
        let Self { frames, work, estimates, segments } = self;
        frames.grow_to(positions)?;
        grow(work, positions)?;
        grow(&mut estimates.middles, windows)?;
        grow(&mut estimates.numbers, windows)?;
        grow(&mut estimates.certainties, windows)?;
        grow(&mut estimates.shapeless, windows)?;
        grow(&mut segments.starts, windows)?;
        grow(&mut segments.ends, windows)?;
        grow(&mut segments.keys, windows)?;
        grow(&mut segments.confidences, windows)?;
        grow(&mut segments.counts, windows)
    }

    /// How much memory is lent.
    pub fn bytes(&self) -> usize {
        let Self { frames, work, estimates, segments } = self;
        size_of_val(&*frames.centres)
            + size_of_val(&*frames.values)
            + size_of_val(&*frames.energies)
            + size_of_val(&**work)
            + size_of_val(&*estimates.middles)
            + size_of_val(&*estimates.numbers)
            + size_of_val(&*estimates.certainties)
            + size_of_val(&*estimates.shapeless)
            + size_of_val(&*segments.starts)
            + size_of_val(&*segments.ends)
            + size_of_val(&*segments.keys)
            + size_of_val(&*segments.confidences)
            + size_of_val(&*segments.counts)
    }
}

#[cfg(test)]
mod tests {
    use super::*;

    /// More frame rows than any memory holds.
    const ENDLESS: usize = usize::MAX / 64;

    #[test]
    fn rows_grow_and_never_shrink() {
        let (settings, mut lent) = (Settings::for_rate(8_000), Buffers::default());
        for seconds in [30, 60, 1] {
            let before = lent.bytes();
            assert_eq!(lent.grow_for(&settings, seconds * 8_000), Ok(()));
            let wanted = Buffers::for_track(&settings, seconds * 8_000);
            assert_eq!(lent.bytes(), before.max(wanted.bytes()));
        }
    }

    #[test]
    fn memory_that_does_not_suffice_is_given_back() {
        let settings = Settings::for_rate(8_000).with(|settings| settings.hop_size = 1);
        let filled = Buffers::for_track(&settings, 5_000);
        assert_ne!(filled, Buffers::default());
        let (mut all, mut frames) = (filled.clone(), filled);
        assert!(all.grow_for(&settings, ENDLESS).is_err());
        assert!(frames.grow_frames_for(&settings, ENDLESS).is_err());
        assert_eq!((all, frames), (Buffers::default(), Buffers::default()));
    }

    #[test]
    fn a_day_has_two_windows_a_second_at_most() {
        let most = Settings::for_rate(1).with(|settings| {
            (settings.local_window_seconds, settings.local_hop_seconds) = (12.0, 0.5);
        });
        assert_eq!(windows(&most, 86_400), 172_777);
        let brief = most.with(|settings| settings.local_window_seconds = f32::MIN_POSITIVE);
        assert_eq!(windows(&brief, 86_400), MOST_WINDOWS);
    }
}
