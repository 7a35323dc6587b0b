//! The hatching of a picture, over the time in which a track has no shape.
use super::picture::{BLOCK_HEIGHT, BLOCKS};
use super::text::NO_SHAPE;

/// Lines through which text can be read; they stand before all that is filled with them.
pub const PATTERN: &str = "<defs><pattern id=\"no-shape\" width=\"7\" height=\"7\" patternUnits=\"userSpaceOnUse\" \
     patternTransform=\"rotate(45)\"><path d=\"M0 0v7\" stroke=\"#222\" stroke-width=\"2.5\" \
     stroke-opacity=\"0.45\"/></pattern></defs>\n";
const FILL: &str = "fill=\"url(#no-shape)\"";

/// A while of a track, in seconds.
#[derive(Debug, Clone, Copy, PartialEq)]
pub struct Stretch {
    pub start: f64,
    pub end: f64,
}

/// The time of windows around these middles, which rise; windows that meet are one stretch, none leaves the track.
pub fn stretches(middles: impl Iterator<Item = f64>, window: f64, duration: f64) -> Vec<Stretch> {
    let mut joined: Vec<Stretch> = vec![];
    for middle in middles {
        let (start, end) = ((middle - window / 2.0).max(0.0), (middle + window / 2.0).min(duration));
        match joined.last_mut() {
            Some(last) if start <= last.end => last.end = end,
            _ => joined.push(Stretch { start, end }),
        }
    }
    joined
}

/// One stretch from left to right, with words for whoever points at it.
pub fn drawn(left: f64, right: f64, times: &str) -> String {
    let width = right - left;
    format!(
        "<g><title>{NO_SHAPE}, {times}</title>\
         <rect x=\"{left:.1}\" y=\"{BLOCKS}\" width=\"{width:.1}\" height=\"{BLOCK_HEIGHT}\" {FILL}/></g>\n"
    )
}

/// What the pattern means, on a line of the picture.
pub fn legend(x: usize, line: usize) -> String {
    format!(
        "<g fill=\"#555\"><rect x=\"{x}\" y=\"{}\" width=\"24\" height=\"13\" {FILL} stroke=\"#888\"/>\
         <text x=\"{}\" y=\"{line}\">{NO_SHAPE}</text></g>\n",
        line - 11,
        x + 30
    )
}

#[cfg(test)]
mod tests {
    use super::*;

    fn of(middles: &[f64], window: f64, duration: f64) -> Vec<(f64, f64)> {
        let found = stretches(middles.iter().copied(), window, duration);
        found.into_iter().map(|stretch| (stretch.start, stretch.end)).collect()
    }

    #[test]
    fn windows_that_meet_are_one_stretch() {
        assert_eq!(of(&[], 12.0, 80.0), []);
        assert_eq!(of(&[6.0], 12.0, 80.0), [(0.0, 12.0)]);
        assert_eq!(of(&[6.0, 12.0, 18.0], 12.0, 80.0), [(0.0, 24.0)]);
        assert_eq!(of(&[6.0, 18.0], 12.0, 80.0), [(0.0, 24.0)]);
        assert_eq!(of(&[6.0, 24.0, 30.0], 12.0, 80.0), [(0.0, 12.0), (18.0, 36.0)]);
    }

    #[test]
    fn no_stretch_leaves_the_track() {
        assert_eq!(of(&[5.0, 10.0], 12.0, 15.0), [(0.0, 15.0)]);
    }
}
