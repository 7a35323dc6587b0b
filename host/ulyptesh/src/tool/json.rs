//! Analyses, cards and their totals as JSON, each number in as few digits as tell it from all others. docs/JSON.md tells the fields.
use std::fmt::Debug;
use ulyptesh::{Analysis, Card, CardSegment, Key, Refusal, Segment, SetTotals};

/// Grows where a field changes its meaning or goes.
const VERSION: u32 = 1;

/// How fields and segments are set apart.
#[derive(Clone, Copy)]
pub enum Layout {
    /// A line for each field and segment.
    Lines,
    /// All in one line.
    OneLine,
}

impl Layout {
    fn between_fields(self) -> &'static str {
        match self {
            Self::Lines => ",\n  ",
            Self::OneLine => ", ",
        }
    }

    fn between_segments(self) -> &'static str {
        match self {
            Self::Lines => ",\n   ",
            Self::OneLine => ", ",
        }
    }
}

/// Text in quotes.
fn string(text: &str) -> String {
    let escaped = text.chars().map(|c| match c {
        '"' | '\\' => format!("\\{c}"),
        c if c.is_control() => format!("\\u{:04x}", u32::from(c)),
        c => c.to_string(),
    });
    format!("\"{}\"", escaped.collect::<String>())
}

/// A number; null where it is not finite.
fn number<F: Copy + Debug + Into<f64>>(x: F) -> String {
    if x.into().is_finite() { format!("{x:?}") } else { "null".into() }
}

/// What is made of a value, or null without one.
fn or_null<A>(value: Option<A>, written: impl FnOnce(A) -> String) -> String {
    value.map_or("null".into(), written)
}

fn name(key: Option<Key>) -> String {
    or_null(key, |key| string(&key.name()))
}

fn key_number(key: Option<Key>) -> String {
    or_null(key, |key| key.number().to_string())
}

fn camelot(key: Option<Key>) -> String {
    or_null(key, |key| string(&key.camelot()))
}

/// A name and what stands there.
type Field = (&'static str, String);

fn object(fields: &[Field], between: &str) -> String {
    let fields: Vec<String> =
        fields.iter().map(|(name, value)| format!("{}: {value}", string(name))).collect();
    format!("{{{}}}", fields.join(between))
}

fn list(items: impl Iterator<Item = String>, between: &str) -> String {
    format!("[{}]", items.collect::<Vec<_>>().join(between))
}

/// A key by its name, its number and its code.
fn key_fields(key: Key) -> [Field; 3] {
    let key = Some(key);
    [("key", name(key)), ("key_number", key_number(key)), ("camelot", camelot(key))]
}

/// The object of a segment; what is said behind its key differs between tracks and cards.
fn segment_object(start: Field, end: Field, key: Key, behind: &[Field]) -> String {
    object(&[&[start, end], &key_fields(key)[..], behind].concat(), ", ")
}

fn segment(told: &Segment) -> String {
    let (start, end) = (("start", number(told.start)), ("end", number(told.end)));
    let behind = [("confidence", number(told.confidence)), ("windows", told.windows.to_string())];
    segment_object(start, end, told.key, &behind)
}

fn card_segment(told: &CardSegment) -> String {
    let (start, end) = (("start_ms", told.start_ms.to_string()), ("end_ms", told.end_ms.to_string()));
    segment_object(start, end, told.key, &[("confidence_thousandths", told.confidence.to_string())])
}

/// The fields on a track's keys; what is said of the key in between.
fn keys(
    key: Option<Key>,
    dsp_key: Option<Key>,
    said: &[Field],
    other: Option<Key>,
    coverage: Field,
) -> Vec<Field> {
    let before = [
        ("key", name(key)),
        ("key_number", key_number(key)),
        ("camelot", camelot(key)),
        ("dsp_key", name(dsp_key)),
        ("dsp_key_number", key_number(dsp_key)),
    ];
    let behind = [
        ("alternate", name(other)),
        ("alternate_number", key_number(other)),
        ("alternate_camelot", camelot(other)),
        coverage,
    ];
    [&before, said, &behind].concat()
}

/// The object of a track.
pub fn track(file: &str, rate: u32, told: &Analysis, layout: Layout) -> String {
    let said = [("confidence", number(told.confidence)), ("shapeless", told.shapeless.to_string())];
    let coverage = ("coverage", or_null(told.alternate, |other| number(other.coverage)));
    let other = told.alternate.map(|other| other.key);
    let before = vec![
        ("version", VERSION.to_string()),
        ("file", string(file)),
        ("rate", rate.to_string()),
        ("seconds", number(told.duration)),
    ];
    let behind = vec![
        ("chroma", list(told.chroma.iter().map(|&x| number(x)), ", ")),
        ("loud_frames", told.loud_frame_count.to_string()),
        ("estimates", told.estimate_count.to_string()),
        ("shapeless_estimates", told.shapeless_estimate_count.to_string()),
        ("segments", list(told.segments.iter().map(segment), layout.between_segments())),
    ];
    let keys = keys(told.key, told.dsp_key, &said, other, coverage);
    object(&[before, keys, behind].concat(), layout.between_fields())
}

/// The object of a card, refused or not.
pub fn card(file: &str, read: &Result<Card, Refusal>, layout: Layout) -> String {
    let card = read.as_ref().ok();
    let (key, dsp_key, alternate) =
        (card.and_then(Card::key), card.and_then(Card::dsp_key), card.and_then(Card::alternate));
    let confidence = ("confidence_thousandths", or_null(card, |card| card.confidence().to_string()));
    let coverage = ("coverage_thousandths", or_null(alternate, |other| other.coverage.to_string()));
    let segments = card.map_or(&[][..], Card::segments).iter().map(card_segment);
    let before = vec![
        ("version", VERSION.to_string()),
        ("file", string(file)),
        ("refusal", or_null(read.as_ref().err(), |why| why.number().to_string())),
        ("layout", or_null(card, |card| card.layout().to_string())),
        ("duration_ms", or_null(card, |card| card.duration_ms().to_string())),
    ];
    let keys = keys(key, dsp_key, &[confidence], alternate.map(|other| other.key), coverage);
    let behind = vec![("segments", list(segments, layout.between_segments()))];
    object(&[before, keys, behind].concat(), layout.between_fields())
}

/// The object of a key's total.
fn key_total(told: &SetTotals, key: Key) -> String {
    let behind = [("total_ms", told.key_ms(key).to_string()), ("share", or_null(told.share(key), number))];
    object(&[&key_fields(key)[..], &behind].concat(), ", ")
}

/// The object of all cards together; so many files are not among them.
pub fn totals(told: &SetTotals, failed: usize, layout: Layout) -> String {
    let keys = told.ranked().into_iter().map(|(key, _)| key_total(told, key));
    let fields = [
        ("version", VERSION.to_string()),
        ("cards", told.cards.to_string()),
        ("without_key", told.without_key.to_string()),
        ("failed", failed.to_string()),
        ("total_ms", told.total_ms().to_string()),
        ("keys", list(keys, layout.between_segments())),
    ];
    object(&fields, layout.between_fields())
}

#[cfg(test)]
mod tests {
    use super::super::made::{told_with, totals_of};
    use super::*;

    /// Whether the fields stand in the object of a track.
    fn has(fields: &str, change: impl FnOnce(&mut Analysis)) -> bool {
        track("track", 8_000, &told_with(change), Layout::OneLine).contains(fields)
    }

    #[test]
    fn shapes_are_told_of_tracks() {
        let behind = ", \"alternate\"";
        assert!(has(&format!("\"shapeless\": false{behind}"), |_| ()));
        assert!(has(&format!("\"shapeless\": true{behind}"), |told| told.shapeless = true));
        assert!(has("\"estimates\": 5, \"shapeless_estimates\": 2, \"segments\"", |told| {
            (told.estimate_count, told.shapeless_estimate_count) = (5, 2);
        }));
    }

    #[test]
    fn windows_are_told_at_the_end_of_a_segment() {
        assert!(has(", \"windows\": 0}]", |_| ()));
        assert!(has(", \"windows\": 30}]", |told| told.segments[0].windows = 30));
    }

    /// The object of the card of a track, changed.
    fn card_with(change: impl FnOnce(&mut Analysis)) -> String {
        let bytes = told_with(change).card().expect("a card");
        card("card", &Card::read(&bytes), Layout::OneLine)
    }

    #[test]
    fn shapes_and_windows_are_not_told_of_cards() {
        let told = card_with(|told| told.shapeless = true);
        assert!(!told.contains("shape") && !told.contains("windows"), "{told}");
    }

    #[test]
    fn layouts_are_told_of_cards() {
        for (end, fields) in [
            (14_400.0, "\"refusal\": null, \"layout\": 1, \"duration_ms\": 14400000, "),
            (86_400.0, "\"refusal\": null, \"layout\": 2, \"duration_ms\": 86400000, "),
        ] {
            let told = card_with(|told| told.segments[0].end = end);
            assert!(told.contains(fields), "{told}");
        }
        let refused = card("card", &Card::read(&[]), Layout::OneLine);
        assert!(refused.contains("\"refusal\": 20, \"layout\": null, \"duration_ms\": null, "), "{refused}");
    }

    #[test]
    fn totals_have_every_key_once() {
        let told = totals(&totals_of(&[(18, 3), (1, 1)], 5, 2), 4, Layout::OneLine);
        let front = "{\"version\": 1, \"cards\": 5, \"without_key\": 2, \"failed\": 4, \"total_ms\": 4, \"keys\": [\
                     {\"key\": \"F# minor\", \"key_number\": 18, \"camelot\": \"11A\", \"total_ms\": 3, \"share\": 0.75}, \
                     {\"key\": \"C# major\", \"key_number\": 1, ";
        assert!(told.starts_with(front), "{told}");
        for key in Key::ALL {
            assert_eq!(told.matches(&format!("\"key_number\": {}, ", key.number())).count(), 1, "{key}");
        }
        assert!(told.ends_with("\"total_ms\": 0, \"share\": 0.0}]}"), "{told}");
        let none = totals(&totals_of(&[], 1, 1), 0, Layout::OneLine);
        assert_eq!(none.matches("\"share\": null}").count(), 24);
    }
}
