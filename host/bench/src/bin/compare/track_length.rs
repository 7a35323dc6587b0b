//! A track's length in samples, and where it ends among milliseconds, in whole numbers.
use crate::groups::compared_exactly;
use crate::packed::{LONGEST, nearest_milliseconds};

/// A track by its rate and its number of samples.
#[derive(Debug, Clone, Copy, PartialEq)]
pub struct Length {
    pub rate: u32,
    pub samples: u64,
}

compared_exactly!(Length);

impl Length {
    /// The duration that an analysis has, rounded once.
    pub fn seconds(self) -> f64 {
        self.samples as f64 / f64::from(self.rate)
    }

    /// Whether the samples reach so many milliseconds.
    pub fn reaches(self, milliseconds: u64) -> bool {
        u128::from(milliseconds) * u128::from(self.rate) <= 1000 * u128::from(self.samples)
    }

    /// Whether the samples end at most a millisecond after so many.
    pub fn ends_near(self, milliseconds: u64) -> bool {
        1000 * u128::from(self.samples) <= (u128::from(milliseconds) + 1) * u128::from(self.rate)
    }

    /// Whether the nearest millisecond lies after the audio.
    pub fn ends_before_nearest(self) -> bool {
        !self.reaches(nearest_milliseconds(self.seconds()))
    }

    /// Whether a track may have so many samples, at least one.
    pub fn is_allowed(self) -> bool {
        (1..=LONGEST * u64::from(self.rate)).contains(&self.samples)
    }
}
