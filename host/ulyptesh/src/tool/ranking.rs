//! The keys that sound on cards, the one with the largest total first, as text and picture tell them.
use super::text::named;
use ulyptesh::{Key, Notation, SetTotals};

/// The longest bar has so many marks.
const LONGEST_BAR: f64 = 40.0;

/// One key that sounds.
pub struct Ranked {
    pub key: Key,
    pub time: String,
    pub share: String,
    /// Its total beside the largest, up to 1.
    pub length: f64,
}

/// Hours, minutes and seconds.
pub fn hours(milliseconds: u64) -> String {
    let whole = milliseconds.saturating_add(500) / 1_000;
    format!("{}:{:02}:{:02}", whole / 3_600, whole / 60 % 60, whole % 60)
}

/// The keys that sound at all; equal ones by number.
pub fn ranking(told: &SetTotals) -> Vec<Ranked> {
    let (ranked, total) = (told.ranked(), told.total_ms() as f64);
    let largest = ranked[0].1 as f64;
    let row = |(key, ms): (Key, u64)| Ranked {
        key,
        time: hours(ms),
        share: format!("{:.1} %", 100.0 * ms as f64 / total),
        length: ms as f64 / largest,
    };
    ranked.into_iter().filter(|&(_, ms)| ms > 0).map(row).collect()
}

/// How many cards there are, and how long they are together.
pub fn counted(told: &SetTotals) -> String {
    let SetTotals { cards, without_key, .. } = *told;
    let plural = if cards == 1 { "" } else { "s" };
    format!("{cards} card{plural}, {without_key} without a key, {} in all", hours(told.total_ms()))
}

/// A key that sounds at all has a mark at least.
fn bar(length: f64) -> String {
    "#".repeat((LONGEST_BAR * length).round().max(1.0) as usize)
}

fn longest<'a>(texts: impl Iterator<Item = &'a String>) -> usize {
    texts.map(String::len).max().unwrap_or_default()
}

/// A line for each key that sounds, and one for the cards.
pub fn lines(told: &SetTotals, notation: Option<Notation>) -> Vec<String> {
    let rows = ranking(told);
    let names: Vec<String> = rows.iter().map(|row| named(row.key, notation)).collect();
    let (name_width, time_width) = (longest(names.iter()), longest(rows.iter().map(|row| &row.time)));
    let line = |(row, name): (&Ranked, &String)| {
        let (time, share, bar) = (&row.time, &row.share, bar(row.length));
        format!("{name:name_width$}  {time:>time_width$}  {share:>7}  {bar}")
    };
    rows.iter().zip(&names).map(line).chain([counted(told)]).collect()
}

#[cfg(test)]
mod tests {
    use super::super::made::totals_of;
    use super::*;

    #[test]
    fn times_have_hours_to_the_nearest_second() {
        for (milliseconds, said) in [
            (0, "0:00:00"),
            (499, "0:00:00"),
            (500, "0:00:01"),
            (3_599_499, "0:59:59"),
            (3_599_500, "1:00:00"),
            (1_024 * 86_400_000, "24576:00:00"),
        ] {
            assert_eq!(hours(milliseconds), said);
        }
    }

    #[test]
    fn keys_that_sound_are_told_by_their_totals() {
        let told = totals_of(&[(0, 15_000), (13, 3_600_000), (18, 15_000), (23, 1)], 12, 3);
        let shown = [
            "C# minor (12A)  1:00:00   99.2 %  ########################################",
            "C major (8B)    0:00:15    0.4 %  #",
            "F# minor (11A)  0:00:15    0.4 %  #",
            "B minor (10A)   0:00:00    0.0 %  #",
            "12 cards, 3 without a key, 1:00:30 in all",
        ];
        assert_eq!(lines(&told, None), shown);
        assert_eq!(lines(&told, Some(Notation::Camelot))[1], "8B   0:00:15    0.4 %  #");
    }

    #[test]
    fn bars_are_as_long_as_their_totals() {
        let told = totals_of(&[(0, 400), (1, 200), (2, 195), (3, 194), (4, 1)], 1, 0);
        let marks = |line: &String| line.matches('#').count() - line[..8].matches('#').count();
        let told: Vec<usize> = lines(&told, None)[..5].iter().map(marks).collect();
        assert_eq!(told, [40, 20, 20, 19, 1]);
    }

    #[test]
    fn cards_without_a_key_are_counted_alone() {
        assert_eq!(lines(&totals_of(&[], 1, 1), None), ["1 card, 1 without a key, 0:00:00 in all"]);
    }
}
