//! The tool's pictures, beside the crate's analysis: each segment's key, confidence and windows, what the shades mean,
//! a mark exactly where the key is another than the only segment's, and hatching exactly where windows have no shape.
use crate::groups::{Groups, compared_as_shown};
use crate::tool_runs::{Folder, text, windows_told};
use bench::inputs::dice::Dice;
use bench::inputs::tracks::{KINDS, Maker, kind};
use std::ops::Range;
use ulyptesh::{Analysis, Analyzer, Settings, Tonic};

/// Streams of the seed from here on.
const STREAM: u64 = 102_000;

const RATE: u32 = 8_000;
const TRACKS: usize = 60;

/// So many tracks with stretches that no note hears, and so many moments of each.
const HATCHED: usize = 24;
const MOMENTS: usize = 400;

/// Frames that do not overlap, and a window every second.
const HATCHED_WORDS: &str = "analyse track --rate 8000 --hop-size 4096 --window 2 --local-hop 1 --svg -";
const FRAME_SIZE: usize = 4_096;

/// How the picture begins to tell of a hatched stretch, which is no segment.
const NO_SHAPE: &str = "the chroma has no shape";

/// What a picture shows.
#[derive(Debug, PartialEq)]
struct Picture {
    /// Key, confidence and windows of each segment, from the blocks' titles.
    segments: Vec<[String; 3]>,
    /// Whether the only segment is marked, and the line below the title says why.
    marked: [bool; 2],
    /// Whether the shades are told from 0 on.
    legend: bool,
}

compared_as_shown!(Picture);

/// Half a minute of a kind that is not refused.
fn samples(seed: u64, nth: usize) -> Vec<f32> {
    let mut maker = Maker { dice: Dice::new(seed, STREAM + nth as u64), rate: RATE };
    (KINDS[nth % 3].make)(&mut maker, 30 * RATE as usize)
}

/// The parts of a text between two marks.
fn between<'a>(text: &'a str, first: &'a str, last: &'a str) -> impl Iterator<Item = &'a str> {
    text.split(first).skip(1).filter_map(move |behind| behind.split(last).next())
}

fn drawn(folder: &Folder, samples: &[f32]) -> Picture {
    folder.put_samples("track", samples);
    let ended = folder.run(&["analyse", "track", "--rate", "8000", "--svg", "-"]);
    let picture = text(&ended.stdout);
    let titles = between(&picture, "<title>", "</title>").filter(|title| !title.starts_with(NO_SHAPE));
    let segments = titles.map(|title| {
        let (key, behind) = title.split_once(", ").unwrap_or_default();
        let mut last = behind.rsplit(", ");
        let [windows, confidence] = [last.next(), last.next()].map(Option::unwrap_or_default);
        [key, confidence, windows].map(String::from)
    });
    Picture {
        segments: segments.collect(),
        marked: ["stroke-dasharray", "the key is the whole track's"].map(|mark| picture.contains(mark)),
        legend: picture.contains(">0</text><rect ") && picture.contains("mean chroma of the loud frames"),
    }
}

fn wanted(told: &Analysis) -> Picture {
    let segments = told.segments.iter().map(|segment| {
        let key = format!("{} ({})", segment.key, segment.key.camelot());
        [key, format!("confidence {:.3}", segment.confidence), windows_told(segment.windows)]
    });
    let lone = told.segments.len() == 1 && Some(told.segments[0].key) != told.key;
    Picture { segments: segments.collect(), marked: [lone; 2], legend: true }
}

/// Half a minute of chords, and in two tracks of three up to three stretches with nothing but a click where each frame
/// begins, which no note hears.
fn with_stretches(seed: u64, nth: usize) -> Vec<f32> {
    let mut maker = Maker { dice: Dice::new(seed, STREAM + (TRACKS + nth) as u64), rate: RATE };
    let mut samples = (kind("chord progression").make)(&mut maker, 30 * RATE as usize);
    for _ in 0..[0, 1, 3][nth % 3] {
        let (from, length) = (maker.dice.below(samples.len()), maker.dice.below(10 * RATE as usize));
        let until = samples.len().min(from + length);
        samples[from..until].fill(0.0);
        let starts = (0..until).step_by(FRAME_SIZE).filter(|start| *start >= from);
        starts.for_each(|start| samples[start] = 0.01);
    }
    samples
}

/// From the left to the right of each rectangle with this mark.
fn rectangles(picture: &str, mark: &str) -> Vec<Range<f64>> {
    let number = |text: &str, name: &str| {
        between(text, &format!("{name}=\""), "\"").next().and_then(|digits| digits.parse::<f64>().ok())
    };
    let marked = between(picture, "<g><title>", "</g>").filter(|part| part.contains(mark));
    let sides = marked.filter_map(|part| {
        let left = number(part, "<rect x")?;
        Some(left..left + number(part, " width")?)
    });
    sides.collect()
}

/// Whether each of the track's moments is hatched; none where the picture has no segments.
fn hatched(folder: &Folder, samples: &[f32]) -> Vec<bool> {
    folder.put_samples("track", samples);
    let ended = folder.run(&HATCHED_WORDS.split_whitespace().collect::<Vec<_>>());
    let picture = text(&ended.stdout);
    let (segments, hatched) = (rectangles(&picture, "confidence"), rectangles(&picture, NO_SHAPE));
    let (Some(first), Some(last)) = (segments.first(), segments.last()) else { return vec![] };
    let place = |part: f64| first.start + part * (last.end - first.start);
    moments().map(|part| hatched.iter().any(|stretch| stretch.contains(&place(part)))).collect()
}

/// Parts of a track's length, none of them a border of windows.
fn moments() -> impl Iterator<Item = f64> {
    (0..MOMENTS).map(|nth| (nth as f64 + 0.37) / MOMENTS as f64)
}

/// Whether each of the moments is in a window without shape; none where the track has no key.
fn in_shapeless_windows(samples: &[f32]) -> Vec<bool> {
    let settings = Settings::for_rate(RATE).with(|settings| {
        settings.hop_size = FRAME_SIZE;
        settings.local_window_seconds = 2.0;
        settings.local_hop_seconds = 1.0;
    });
    let mut analyzer = Analyzer::new(settings).expect("settings that are taken");
    let told = analyzer.analyse(samples).expect("a track that is not refused");
    if told.key.is_none() {
        return vec![];
    }
    let middles = analyzer.estimates().filter(|told| told.shapeless).map(|told| told.middle);
    let windows: Vec<Range<f64>> = middles.map(|middle| middle - 1.0..middle + 1.0).collect();
    moments().map(|part| windows.iter().any(|window| window.contains(&(part * told.duration)))).collect()
}

fn compare_hatching(groups: &mut Groups, folder: &Folder) {
    let seed = groups.seed;
    let wanted = |nth| in_shapeless_windows(&with_stretches(seed, nth));
    let some = (0..HATCHED).filter(|&nth| wanted(nth).contains(&true)).count();
    assert!((1..HATCHED).contains(&some), "some tracks have windows without shape, and some have none");
    let ours = |nth| hatched(folder, &with_stretches(seed, nth));
    groups.group("the hatching of the tool's pictures", 0..HATCHED, ours, wanted);
}

/// The colour of the strongest value.
const DARKEST: &str = "#08306b";

/// The name of the row that a tone of this pitch class is darkest in: rows are 17 high, and a name stands 13 below its
/// row's upper edge.
fn darkest_row(folder: &Folder, class: usize) -> Option<String> {
    let hertz = 440.0 * ((class as f32 + 60.0 - 69.0) / 12.0).exp2();
    let step = hertz / RATE as f32 * std::f32::consts::TAU;
    folder.put_samples("tone", &(0..4 * RATE).map(|place| (place as f32 * step).sin()).collect::<Vec<f32>>());
    let picture = text(&folder.run(&["analyse", "tone", "--rate", "8000", "--svg", "-"]).stdout);
    let cells = between(&picture, &format!("<path fill=\"{DARKEST}\" d=\"M"), "\"").next()?.to_string();
    let top: usize = cells.split([' ', 'H']).nth(1)?.parse().ok()?;
    let before_name = format!("y=\"{}\" text-anchor=\"end\">", top + 13);
    between(&picture, &before_name, "<").next().map(String::from)
}

pub fn compare(groups: &mut Groups) {
    let (seed, folder) = (groups.seed, Folder::new("tool-pictures"));
    let analysed = |nth| {
        let mut analyzer = Analyzer::for_rate(RATE).expect("a rate that is taken");
        analyzer.analyse(&samples(seed, nth)).expect("a track that is not refused")
    };
    let marked = (0..TRACKS).filter(|&nth| wanted(&analysed(nth)).marked[0]).count();
    assert!((1..TRACKS).contains(&marked), "some pictures have the mark, and some have not");
    let ours = |nth| drawn(&folder, &samples(seed, nth));
    groups.group("the tool's pictures", 0..TRACKS, ours, |nth| wanted(&analysed(nth)));
    compare_hatching(groups, &folder);
    let name = |class: usize| Some(Tonic::ALL[class].to_string());
    groups.group("the rows of the tool's pictures", 0..12, |class| darkest_row(&folder, class), name);
}
