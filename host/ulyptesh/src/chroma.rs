//! The 24 scores and the key of a chroma.
use crate::calls::{self, KEYS, KeyResult, PITCH_CLASSES};
use crate::keys::Key;

/// A number for each pitch class, from C upward.
pub type Chroma = [f32; PITCH_CLASSES];

/// The key of a chroma, and what speaks for it.
#[non_exhaustive]
#[derive(Debug, Clone, Copy, PartialEq)]
pub struct FoundKey {
    /// The key that is told. Where no score is a number it is C major.
    pub key: Key,
    /// The highest of the 24 scores. Where the key's relative scores higher it is the relative's, and where no score
    /// is a number it is -infinity.
    pub best: f32,
    /// The second score, likewise.
    pub second: f32,
    /// From 0 to 1; a NaN where no score is a number.
    pub confidence: f32,
    /// Whether the chroma [has no shape](is_shapeless), so that key and scores say little.
    pub shapeless: bool,
}

/// The 24 scores by key number. A chroma with a NaN or an infinity, or whose sum overflows, has NaNs for scores.
pub fn scores(chroma: &Chroma) -> [f32; KEYS] {
    let mut room = [0.0; KEYS];
    let told = calls::scores(chroma, &mut room);
    assert_eq!(told.refusal, 0, "12 numbers and 24 places are what the call takes");
    room
}

/// The key of a chroma, meant for one that is normalised to a sum of 1 as the library's are: far from that size an
/// overflow decides the scores, or the floor of the correlation's divisor, so that it is [shapeless](is_shapeless).
///
/// ```
/// let found = ulyptesh::key(&[1.0, 0.0, 0.0, 0.0, 1.0, 0.0, 0.0, 1.0, 0.0, 0.0, 0.0, 0.0]);
/// assert_eq!(found.key.name(), "C major");
/// ```
pub fn key(chroma: &Chroma) -> FoundKey {
    let told = calls::key(chroma);
    let key = Key::try_from(told.key).expect("a chroma of 12 numbers has a key");
    let KeyResult { best, second, confidence, shapeless, .. } = told;
    FoundKey { key, best, second, confidence, shapeless: shapeless != 0 }
}

/// Whether a chroma has no shape: its numbers are so nearly equal, or all so small, that in at least one of its 96
/// correlations (24 keys, four profiles each) the divisor, the root of the product of the two energies, was below
/// 2^-23 or a NaN, and 2^-23 stood in for it. A chroma with a NaN or an infinity is such a one. Key and scores are
/// answered as for any other, and say little.
///
/// ```
/// assert!(ulyptesh::is_shapeless(&[1.0 / 12.0; 12]));
/// ```
pub fn is_shapeless(chroma: &Chroma) -> bool {
    calls::scores(chroma, &mut [0.0; KEYS]).shapeless != 0
}

#[cfg(test)]
mod tests {
    use super::*;

    /// C, E and G, each as strong as this.
    fn triad(strength: f32) -> Chroma {
        let mut chroma = [0.0; PITCH_CLASSES];
        [0, 4, 7].into_iter().for_each(|class| chroma[class] = strength);
        chroma
    }

    /// Zeros but for one number.
    fn lone(number: f32) -> Chroma {
        let mut chroma = [0.0; PITCH_CLASSES];
        chroma[5] = number;
        chroma
    }

    fn assert_shapeless(chroma: Chroma, expected: bool) {
        assert_eq!(is_shapeless(&chroma), expected, "{chroma:?}");
        assert_eq!(key(&chroma).shapeless, expected, "{chroma:?}");
    }

    #[test]
    fn even_small_and_unknown_numbers_have_no_shape() {
        let equal = [0.0, 1.0 / 12.0, 1.0].map(|number| [number; PITCH_CLASSES]);
        let others = [triad(1e-9), lone(f32::NAN), lone(f32::INFINITY), lone(f32::NEG_INFINITY)];
        equal.into_iter().chain(others).for_each(|chroma| assert_shapeless(chroma, true));
    }

    #[test]
    fn others_have_a_shape_also_where_the_sum_overflows() {
        for chroma in [triad(1.0), triad(1.0 / 3.0), triad(1e-3), lone(-1.0), triad(f32::MAX)] {
            assert_shapeless(chroma, false);
        }
    }
}
