//! An analysis as a picture: the segments along the time, and the chroma below them.
use super::hatching::{self, PATTERN, Stretch, stretches};
use super::heat_map::{self, BOTTOM, LEGEND};
use super::text::{NO_SHAPE, named, windows};
use std::iter;
use ulyptesh::{Analysis, Analyzer, Key, Mode, Segment};

/// Where time begins, and how far it goes.
pub const LEFT: usize = 60;
pub const WIDTH: usize = 910;

/// The height of the whole picture.
const HEIGHT: usize = 420;

/// The segments' blocks.
pub const BLOCKS: usize = 68;
pub const BLOCK_HEIGHT: usize = 58;

/// Where the legend tells what the hatching means.
const HATCHING_LEGEND: usize = 470;

/// Around a segment, and around the only one where the reported key is another.
const SEGMENT_BORDER: &str = "stroke=\"#fff\"";
const OTHER_BORDER: &str = "stroke=\"#b00\" stroke-width=\"2\" stroke-dasharray=\"8 5\"";

/// Letters of the large and of the small text are at most so wide.
const LARGE_LETTER: f64 = 10.5;
const SMALL_LETTER: f64 = 7.0;

/// The longest name that fits beneath the title.
const LONGEST_NAME: usize = 90;

/// Seconds from tick to tick; the first that gives few enough is taken, else the longest, which does for a day.
const STEPS: [f64; 16] =
    [0.1, 0.2, 0.5, 1.0, 2.0, 5.0, 10.0, 15.0, 30.0, 60.0, 120.0, 300.0, 600.0, 1_200.0, 1_800.0, 3_600.0];
const LONGEST_STEP: f64 = 7_200.0;
const MOST_TICKS: f64 = 12.0;

pub struct Picture<'a> {
    name: &'a str,
    told: &'a Analysis,
    /// The chroma over time, as it is drawn.
    map: String,
    /// Where windows have no shape.
    shapeless: Vec<Stretch>,
}

/// Text as it may stand in XML.
fn escaped(text: &str) -> String {
    let escape = |c: char| match c {
        '&' => "&amp;".into(),
        '<' => "&lt;".into(),
        '>' => "&gt;".into(),
        '"' => "&quot;".into(),
        c if c.is_control() || ('\u{fffe}'..='\u{ffff}').contains(&c) => " ".into(),
        c => c.to_string(),
    };
    text.chars().map(escape).collect()
}

/// The end of a long name, which tells most.
pub fn shortened(name: &str) -> String {
    let letters: Vec<char> = name.chars().collect();
    match letters.len().checked_sub(LONGEST_NAME) {
        None | Some(0) => name.into(),
        Some(over) => format!("...{}", letters[over + 3..].iter().collect::<String>()),
    }
}

/// Minutes and seconds, with hours where there are any; tenths of a second where the whole track has few.
fn clock(seconds: f64, duration: f64) -> String {
    if duration < 10.0 {
        return format!("{seconds:.1} s");
    }
    let whole = seconds.round() as u64;
    let (hours, minutes, seconds) = (whole / 3600, whole / 60 % 60, whole % 60);
    if hours > 0 { format!("{hours}:{minutes:02}:{seconds:02}") } else { format!("{minutes}:{seconds:02}") }
}

/// Around the Camelot wheel by hue, light enough for dark text; minor keys are the darker ones.
pub fn colour(key: Key) -> String {
    let (saturation, lightness) = if key.mode() == Mode::Minor { (0.55, 0.68) } else { (0.75, 0.80) };
    let hue = f64::from(key.camelot_number() - 1) / 12.0;
    let reach = saturation * f64::min(lightness, 1.0 - lightness);
    let channel = |offset: f64| {
        let place = (offset + hue * 12.0) % 12.0;
        let turn = f64::min(place - 3.0, 9.0 - place).clamp(-1.0, 1.0);
        ((lightness - reach * turn) * 255.0).round() as u8
    };
    format!("#{:02x}{:02x}{:02x}", channel(0.0), channel(8.0), channel(4.0))
}

/// Where windows have no shape; of a track without estimates, all of it where it has none itself.
fn shapeless(told: &Analysis, analyzer: &Analyzer) -> Vec<Stretch> {
    if told.estimate_count == 0 && told.shapeless {
        return vec![Stretch { start: 0.0, end: told.duration }];
    }
    let marked = analyzer.estimates().filter(|estimate| estimate.shapeless);
    let window = analyzer.settings().local_window_seconds.into();
    stretches(marked.map(|estimate| estimate.middle), window, told.duration)
}

impl<'a> Picture<'a> {
    /// Of the track that was analysed last.
    pub fn new(name: &'a str, told: &'a Analysis, analyzer: &Analyzer) -> Self {
        let settings = analyzer.settings();
        let frame = settings.frame_size as f64 / f64::from(settings.rate);
        let map = heat_map::drawn(analyzer.loud_frames(), frame, told.duration);
        Self { name, told, map, shapeless: shapeless(told, analyzer) }
    }

    fn x(&self, seconds: f64) -> f64 {
        LEFT as f64 + seconds / self.told.duration * WIDTH as f64
    }

    fn clock(&self, seconds: f64) -> String {
        clock(seconds, self.told.duration)
    }

    fn times(&self, start: f64, end: f64) -> String {
        format!("{} to {}", self.clock(start), self.clock(end))
    }

    fn title(&self) -> String {
        let told = self.told;
        let Some(key) = told.key else { return "no key".into() };
        let alternate = told.alternate.map_or("no alternate".into(), |other| {
            format!("alternate {}, {:.3} of the track", named(other.key, None), other.coverage)
        });
        format!("{}, confidence {:.3}; {alternate}", named(key, None), told.confidence)
    }

    fn subtitle(&self) -> String {
        let (name, frames) = (shortened(self.name), self.told.loud_frame_count);
        let lone =
            self.told.lone_other_key().map_or("", |_| "; the key is the whole track's, not its segment's");
        let shape = if self.told.shapeless { format!("; {NO_SHAPE}") } else { String::new() };
        format!("{name}: {:.2} s, {frames} loud frames{lone}{shape}", self.told.duration)
    }

    /// A line of a block at this height: the first of the texts that is short enough.
    fn line(&self, segment: &Segment, texts: &[String], letter: f64, below: usize, style: &str) -> String {
        let (left, right) = (self.x(segment.start), self.x(segment.end));
        let fits = |text: &&String| text.len() as f64 * letter <= right - left;
        let Some(text) = texts.iter().find(fits) else { return String::new() };
        let (middle, y) = ((left + right) / 2.0, BLOCKS + below);
        format!("<text x=\"{middle:.1}\" y=\"{y}\"{style}>{text}</text>")
    }

    fn block(&self, segment: &Segment) -> String {
        let (left, key) = (self.x(segment.start), segment.key);
        let width = self.x(segment.end) - left;
        let times = self.times(segment.start, segment.end);
        let number = format!("{:.3}", segment.confidence);
        let confidence = format!("confidence {number}");
        let border = self.told.lone_other_key().map_or(SEGMENT_BORDER, |_| OTHER_BORDER);
        let names = [named(key, None), key.name(), key.camelot()];
        let title = format!("{}, {times}, {confidence}, {}", names[0], windows(segment.windows));
        let lines = [
            self.line(segment, &names, LARGE_LETTER, 20, " font-size=\"15\" font-weight=\"bold\""),
            self.line(segment, &[confidence, number], SMALL_LETTER, 36, ""),
            self.line(segment, &[times], SMALL_LETTER, 51, ""),
        ];
        format!(
            "<g><title>{title}</title>\
             <rect x=\"{left:.1}\" y=\"{BLOCKS}\" width=\"{width:.1}\" height=\"{BLOCK_HEIGHT}\" fill=\"{}\" \
             {border}/>{}</g>\n",
            colour(key),
            lines.concat()
        )
    }

    /// Over the blocks; nothing where all windows have a shape.
    fn hatching(&self) -> String {
        if self.shapeless.is_empty() {
            return String::new();
        }
        let drawn =
            |&Stretch { start, end }| hatching::drawn(self.x(start), self.x(end), &self.times(start, end));
        iter::once(PATTERN.into()).chain(self.shapeless.iter().map(drawn)).collect()
    }

    fn hatching_legend(&self) -> String {
        if self.shapeless.is_empty() { String::new() } else { hatching::legend(HATCHING_LEGEND, LEGEND) }
    }

    fn tick(&self, seconds: f64) -> String {
        let (x, label) = (self.x(seconds), self.clock(seconds));
        let mark = |y: usize| {
            format!(
                "<path d=\"M{x:.1} {y}v6\" stroke=\"#555\"/><text x=\"{x:.1}\" y=\"{}\">{label}</text>\n",
                y + 20
            )
        };
        mark(BLOCKS + BLOCK_HEIGHT) + &mark(BOTTOM)
    }

    fn axis(&self) -> String {
        let duration = self.told.duration;
        let step = STEPS.into_iter().find(|step| duration / step <= MOST_TICKS).unwrap_or(LONGEST_STEP);
        let ticks = (0..).map(|nth| f64::from(nth) * step).take_while(|&seconds| seconds <= duration);
        ticks.map(|seconds| self.tick(seconds)).collect()
    }

    /// What lies along the time; nothing where the track has no length.
    fn plot(&self) -> String {
        if self.told.duration <= 0.0 {
            return String::new();
        }
        let blocks: String = self.told.segments.iter().map(|segment| self.block(segment)).collect();
        let (hatching, legend) = (self.hatching(), self.hatching_legend());
        format!("<g text-anchor=\"middle\">\n{blocks}{hatching}{}</g>\n{}{legend}", self.axis(), self.map)
    }
}

/// A picture as SVG: 1,000 wide and so high, dark on light, what is drawn below its title.
pub fn page(height: usize, title: &str, subtitle: &str, drawn: &str) -> String {
    format!(
        "<svg xmlns=\"http://www.w3.org/2000/svg\" viewBox=\"0 0 1000 {height}\" width=\"1000\" height=\"{height}\" \
         font-family=\"sans-serif\" font-size=\"12\" fill=\"#222\">\n\
         <rect width=\"1000\" height=\"{height}\" fill=\"#fff\"/>\n\
         <text x=\"{LEFT}\" y=\"32\" font-size=\"18\" font-weight=\"bold\">{}</text>\n\
         <text x=\"{LEFT}\" y=\"54\" font-size=\"13\" fill=\"#555\">{}</text>\n{drawn}\
         </svg>\n",
        escaped(title),
        escaped(subtitle),
    )
}

/// The picture of an analysis.
pub fn svg(picture: &Picture<'_>) -> String {
    page(HEIGHT, &picture.title(), &picture.subtitle(), &picture.plot())
}

#[cfg(test)]
mod tests {
    use super::super::made::told_with;
    use super::*;

    /// The picture of two seconds with these stretches.
    fn drawn(told: &Analysis, shapeless: Vec<Stretch>) -> String {
        svg(&Picture { name: "track", told, map: String::new(), shapeless })
    }

    /// How often a text stands in a picture.
    fn count(picture: &str, text: &str) -> usize {
        picture.matches(text).count()
    }

    #[test]
    fn windows_behind_a_segment_are_told_to_whoever_points_at_it() {
        for (windows, said) in [(0, ", 0 windows<"), (1, ", 1 window<"), (12, ", 12 windows<")] {
            let picture = drawn(&told_with(|told| told.segments[0].windows = windows), vec![]);
            assert_eq!(count(&picture, &format!("{said}/title>")), 1);
        }
    }

    /// The labels below the blocks, each with its place, from left to right.
    fn labels(told: &Analysis) -> Vec<(f64, String)> {
        let (picture, line) = (drawn(told, vec![]), format!("\" y=\"{}\">", BLOCKS + BLOCK_HEIGHT + 20));
        let label = |at: usize| {
            let (before, behind) = (&picture[..at], &picture[at + line.len()..]);
            let x = before.rsplit('"').next().and_then(|x| x.parse().ok()).expect("a place");
            (x, behind.split('<').next().expect("a label").into())
        };
        picture.match_indices(&line).map(|(at, _)| label(at)).collect()
    }

    #[test]
    fn times_do_not_overlap() {
        let (mut told, lengths) = (told_with(|_| ()), (1..=86_400).step_by(61).map(f64::from));
        for seconds in
            lengths.chain([0.5, 1.2, 9.9, 3_599.0, 3_600.0, 14_400.0, 14_401.0, 86_399.0, 86_400.0])
        {
            told.duration = seconds;
            let labels = labels(&told);
            assert!((2..=13).contains(&labels.len()), "{seconds} s: {labels:?}");
            for pair in labels.windows(2) {
                let halves = (pair[0].1.len() + pair[1].1.len()) as f64 / 2.0;
                assert!(pair[1].0 - pair[0].0 > halves * SMALL_LETTER, "{seconds} s: {pair:?}");
            }
        }
    }

    #[test]
    fn the_times_of_a_day_have_hours() {
        let labels = labels(&told_with(|told| told.duration = 86_400.0));
        let [first, second, .., last] = &labels[..] else { panic!("{labels:?}") };
        assert_eq!((first.1.as_str(), second.1.as_str(), last.1.as_str()), ("0:00", "2:00:00", "24:00:00"));
        assert_eq!((first.0, last.0), (LEFT as f64, (LEFT + WIDTH) as f64));
    }

    #[test]
    fn nothing_is_hatched_where_all_has_a_shape() {
        let picture = drawn(&told_with(|_| ()), vec![]);
        assert_eq!((count(&picture, "no-shape"), count(&picture, "no shape")), (0, 0));
    }

    #[test]
    fn each_stretch_is_hatched_over_its_time() {
        let halves = [0.5, 1.5].map(|start| Stretch { start, end: start + 0.25 });
        let picture = drawn(&told_with(|_| ()), halves.to_vec());
        assert_eq!(count(&picture, "height=\"58\" fill=\"url(#no-shape)\""), 2);
        assert!(picture.find("<pattern id=\"no-shape\"") < picture.find("url(#no-shape)"));
        assert_eq!((count(&picture, "<pattern "), count(&picture, SEGMENT_BORDER)), (1, 1));
        assert!(picture.find(SEGMENT_BORDER) < picture.find("url(#no-shape)"), "over the segment");
        assert_eq!(count(&picture, "<rect x=\"287.5\" y=\"68\" width=\"113.8\" height=\"58\" fill=\"url"), 1);
        assert_eq!(count(&picture, "<title>the chroma has no shape, 1.5 s to 1.8 s</title>"), 1);
        assert_eq!(count(&picture, ">the chroma has no shape</text>"), 1);
    }

    #[test]
    fn a_track_without_shape_and_windows_is_hatched_whole() {
        let analyzer = Analyzer::for_rate(8_000).expect("a rate that is taken");
        let brief = told_with(|told| told.shapeless = true);
        assert_eq!(shapeless(&brief, &analyzer), [Stretch { start: 0.0, end: 2.0 }]);
        assert_eq!(count(&drawn(&brief, vec![]), " loud frames; the chroma has no shape</text>"), 1);
        let with_windows = told_with(|told| (told.shapeless, told.estimate_count) = (true, 1));
        assert_eq!(shapeless(&with_windows, &analyzer), []);
    }
}
