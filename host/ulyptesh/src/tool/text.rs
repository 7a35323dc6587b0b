//! An analysis as lines for a reader.
use ulyptesh::{Analysis, Key, Notation};

/// Said of a chroma that is so even that no key stands out.
pub const NO_SHAPE: &str = "the chroma has no shape";

/// A time has so many places at least, with two behind the point.
const FEWEST_PLACES: usize = 6;

/// A key as a reader is told it: in one notation, or by its name with the Camelot code.
pub fn named(key: Key, notation: Option<Notation>) -> String {
    match notation {
        Some(notation) => key.in_notation(notation),
        None => format!("{key} ({})", key.camelot()),
    }
}

/// The key alone.
pub fn key_alone(told: &Analysis, notation: Option<Notation>) -> String {
    told.key.map_or("none".into(), |key| key.in_notation(notation.unwrap_or(Notation::Sharps)))
}

/// What rests on a chroma without shape: of several segments the key is not the whole chroma's.
fn shape_of_track(told: &Analysis) -> Option<String> {
    let (one, several) = ("key and confidence say little", "the confidence says little");
    told.shapeless.then(|| format!("  {NO_SHAPE}: {}", if told.segments.len() > 1 { several } else { one }))
}

/// How many windows tell a key that says little.
fn shape_of_windows(told: &Analysis) -> Option<String> {
    let (count, all) = (told.shapeless_estimate_count, told.estimate_count);
    (count > 0).then(|| format!("  no shape in {count} of {all} windows: their keys say little"))
}

/// How many windows stand behind a segment.
pub fn windows(count: u32) -> String {
    format!("{count} window{}", if count == 1 { "" } else { "s" })
}

/// So many places have the times of all segments, which are then one below the other.
fn places(told: &Analysis) -> usize {
    format!("{:.2}", told.duration).len().max(FEWEST_PLACES)
}

/// The key, the alternate and the segments of a track, and where its chroma has no shape.
pub fn lines(name: &str, told: &Analysis, notation: Option<Notation>) -> Vec<String> {
    let named = |key| named(key, notation);
    let Some(key) = told.key else {
        let (seconds, loud) = (told.duration, told.loud_frame_count);
        return vec![format!("{name}: no key in {seconds:.2} s, {loud} loud frames")];
    };
    let mut lines = vec![format!("{name}: {}, confidence {:.3}", named(key), told.confidence)];
    lines.push(match told.alternate {
        Some(other) => format!("  alternate: {}, {:.3} of the track", named(other.key), other.coverage),
        None => "  alternate: none".into(),
    });
    let places = places(told);
    lines.extend(told.segments.iter().map(|segment| {
        let (start, end, key) = (segment.start, segment.end, named(segment.key));
        let (confidence, windows) = (segment.confidence, windows(segment.windows));
        format!("  {start:places$.2} s to {end:places$.2} s: {key}, confidence {confidence:.3}, {windows}")
    }));
    if told.lone_other_key().is_some() {
        lines.push("  the key is the whole track's; its one segment tells another".into());
    }
    lines.extend(shape_of_track(told));
    lines.extend(shape_of_windows(told));
    lines
}

#[cfg(test)]
mod tests {
    use super::super::made::told_with;
    use super::*;

    /// The lines behind those that any track has.
    fn added(change: impl FnOnce(&mut Analysis)) -> Vec<String> {
        let told = told_with(change);
        lines("track", &told, None).split_off(2 + told.segments.len())
    }

    #[test]
    fn windows_behind_a_segment_are_told_at_the_end_of_its_line() {
        for (windows, said) in [(0, ", 0 windows"), (1, ", 1 window"), (172_801, ", 172801 windows")] {
            let lines = lines("track", &told_with(|told| told.segments[0].windows = windows), None);
            assert!(lines[2].ends_with(said), "{lines:?}");
        }
    }

    #[test]
    fn times_stand_one_below_the_other() {
        for (duration, first, second) in [
            (2.0, "    0.00 s to   1.00 s: ", "    1.00 s to   2.00 s: "),
            (999.99, "    0.00 s to   1.00 s: ", "    1.00 s to 999.99 s: "),
            (999.999, "     0.00 s to    1.00 s: ", "     1.00 s to 1000.00 s: "),
            (86_400.0, "      0.00 s to     1.00 s: ", "      1.00 s to 86400.00 s: "),
        ] {
            let told = told_with(|told| {
                told.duration = duration;
                told.segments[0].end = 1.0;
                told.segments.push(told.segments[0]);
                (told.segments[1].start, told.segments[1].end) = (1.0, duration);
            });
            let lines = lines("track", &told, None);
            assert!(lines[2].starts_with(first) && lines[3].starts_with(second), "{lines:?}");
        }
    }

    #[test]
    fn nothing_is_added_where_all_has_a_shape() {
        assert_eq!(added(|told| told.estimate_count = 12), [] as [&str; 0]);
    }

    #[test]
    fn a_track_without_shape_is_told() {
        let one = added(|told| told.shapeless = true);
        assert_eq!(one, ["  the chroma has no shape: key and confidence say little"]);
        let several = added(|told| {
            told.shapeless = true;
            told.segments.push(told.segments[0]);
        });
        assert_eq!(several, ["  the chroma has no shape: the confidence says little"]);
    }

    #[test]
    fn windows_without_shape_are_counted() {
        let count = |told: &mut Analysis| (told.estimate_count, told.shapeless_estimate_count) = (12, 3);
        assert_eq!(added(count), ["  no shape in 3 of 12 windows: their keys say little"]);
        let both = added(|told| {
            count(told);
            told.shapeless = true;
        });
        assert_eq!(both.len(), 2, "{both:?}");
    }
}
