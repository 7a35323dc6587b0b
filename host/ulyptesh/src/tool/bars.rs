//! The totals of cards as a picture: a bar for each key that sounds, the longest first.
use super::picture::{colour, page, shortened};
use super::ranking::{Ranked, counted, hours, ranking};
use super::text::named;
use ulyptesh::SetTotals;

/// The upper edge of the first bar, from bar to bar, and a bar's height.
const TOP: usize = 76;
const ROW: usize = 24;
const BAR: usize = 17;

/// Where bars begin, how far the longest goes, and the room beside a bar before text.
const LEFT: usize = 180;
const LONGEST: f64 = 640.0;
const GAP: usize = 8;

/// Below the last bar.
const MARGIN: usize = 14;

fn drawn((nth, row): (usize, &Ranked)) -> String {
    let (top, width) = (TOP + nth * ROW, row.length * LONGEST);
    let (line, behind) = (top + 13, LEFT as f64 + width + GAP as f64);
    let (name, said) = (named(row.key, None), format!("{}, {}", row.time, row.share));
    format!(
        "<g><title>{name}, {said}</title><text x=\"{}\" y=\"{line}\" text-anchor=\"end\">{name}</text>\
         <rect x=\"{LEFT}\" y=\"{top}\" width=\"{width:.1}\" height=\"{BAR}\" fill=\"{}\"/>\
         <text x=\"{behind:.1}\" y=\"{line}\">{said}</text></g>\n",
        LEFT - GAP,
        colour(row.key)
    )
}

/// The picture of cards by some name.
pub fn svg(name: &str, told: &SetTotals) -> String {
    let rows = ranking(told);
    let title = rows.first().map_or("no key".into(), |first| {
        format!("{}, {} of {}", named(first.key, None), first.share, hours(told.total_ms()))
    });
    let subtitle = format!("{}: {}", shortened(name), counted(told));
    let bars: String = rows.iter().enumerate().map(drawn).collect();
    page(TOP + rows.len() * ROW + MARGIN, &title, &subtitle, &bars)
}

#[cfg(test)]
mod tests {
    use super::super::made::totals_of;
    use super::*;

    #[test]
    fn each_key_that_sounds_has_a_bar() {
        let picture = svg("a<b", &totals_of(&[(0, 3_000), (21, 6_000)], 2, 1));
        let bars: Vec<&str> = picture.lines().filter(|line| line.starts_with("<g>")).collect();
        let [first, second] = bars[..] else { panic!("{picture}") };
        assert!(first.starts_with("<g><title>A minor (8A), 0:00:06, 66.7 %</title>"), "{first}");
        assert!(second.starts_with("<g><title>C major (8B), 0:00:03, 33.3 %</title>"), "{second}");
        assert!(first.contains("<rect x=\"180\" y=\"76\" width=\"640.0\" height=\"17\" "), "{first}");
        assert!(second.contains("<rect x=\"180\" y=\"100\" width=\"320.0\" height=\"17\" "), "{second}");
        assert!(second.ends_with(">0:00:03, 33.3 %</text></g>"), "{second}");
        assert!(picture.contains(" height=\"138\" ") && picture.ends_with("</svg>\n"), "{picture}");
        assert!(picture.contains(">A minor (8A), 66.7 % of 0:00:09</text>"), "{picture}");
        assert!(picture.contains(">a&lt;b: 2 cards, 1 without a key, 0:00:09 in all</text>"), "{picture}");
    }

    /// The number behind the last mark of its kind.
    fn number_behind(text: &str, mark: &str) -> f64 {
        let behind = text.rsplit(mark).next().and_then(|behind| behind.split('"').next());
        behind.and_then(|digits| digits.parse().ok()).expect("a number")
    }

    #[test]
    fn all_keys_and_the_longest_times_fit() {
        let keys: Vec<(usize, u64)> = (0..24).map(|key| (key, 1_024 * 86_400_000)).collect();
        let picture = svg("all", &totals_of(&keys, 24, 0));
        let bars: Vec<&str> = picture.lines().filter(|line| line.starts_with("<g>")).collect();
        let (first_line, last_bar) = (picture.lines().next().expect("a line"), bars[23]);
        assert!(number_behind(last_bar, " y=\"") < number_behind(first_line, " height=\""), "{picture}");
        let width = 7.0 * "24576:00:00, 4.2 %".len() as f64;
        assert!(last_bar.contains(">24576:00:00, 4.2 %<"), "{last_bar}");
        assert!(number_behind(last_bar, "<text x=\"") + width < 1_000.0, "{last_bar}");
    }

    #[test]
    fn cards_without_a_key_have_no_bar() {
        let picture = svg("silent", &totals_of(&[], 3, 3));
        assert!(picture.contains(">no key</text>") && !picture.contains("<g>"), "{picture}");
    }
}
