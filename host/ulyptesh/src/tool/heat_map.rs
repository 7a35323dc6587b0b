//! The chroma over time: a row for each pitch class, a column for each while, averaged from the loud frames.
use super::picture::{LEFT, WIDTH};
use std::fmt::Write;
use std::ops::RangeInclusive;
use ulyptesh::{LoudFrame, Tonic};

/// Most columns of the map.
const MOST: usize = 182;

/// From light to dark.
const SHADES: usize = 16;
const LIGHTEST: [f64; 3] = [247.0, 249.0, 252.0];
const DARKEST: [f64; 3] = [8.0, 48.0, 107.0];

/// The rows' upper edges, from the top: B, and C the last.
const TOP: usize = 166;
const ROW: usize = 17;
pub const BOTTOM: usize = TOP + 12 * ROW;

/// The legend's line, a box of it, and the room behind it.
pub const LEGEND: usize = 410;
const LEGEND_BOX: usize = 12;
const LEGEND_RIGHT: usize = 48;

/// The mean chroma of the loud frames of one column.
type Column = Option<[f64; 12]>;

/// The columns of a track that a frame lies in, with so many seconds on either side of its centre.
fn columns_of(centre: f64, half: f64, duration: f64, count: usize) -> RangeInclusive<usize> {
    let column = |seconds: f64| ((seconds / duration * count as f64) as usize).min(count - 1);
    column(centre - half)..=column(centre + half)
}

/// The columns of a track; one without a loud frame is empty.
fn columns(frames: impl Iterator<Item = LoudFrame>, half: f64, duration: f64, count: usize) -> Vec<Column> {
    let mut sums = vec![([0.0; 12], 0); count];
    for frame in frames {
        for (sum, heard) in &mut sums[columns_of(frame.centre, half, duration, count)] {
            sum.iter_mut().zip(frame.chroma).for_each(|(sum, value)| *sum += f64::from(value));
            *heard += 1;
        }
    }
    sums.into_iter().map(|(sum, heard)| (heard > 0).then(|| sum.map(|sum| sum / f64::from(heard)))).collect()
}

fn colour(shade: usize) -> String {
    let part = shade as f64 / (SHADES - 1) as f64;
    let channel = |at: usize| (LIGHTEST[at] + part * (DARKEST[at] - LIGHTEST[at])).round() as u8;
    format!("#{:02x}{:02x}{:02x}", channel(0), channel(1), channel(2))
}

/// The shade of a value beside the largest.
fn shade(value: f64, largest: f64) -> usize {
    if largest > 0.0 { (value.max(0.0) / largest * (SHADES - 1) as f64).round() as usize } else { 0 }
}

/// One row's runs of equal shade, drawn into the paths of their shades.
fn draw_row(shades: &[Option<usize>], top: usize, paths: &mut [String]) {
    let edge = |column: usize| LEFT as f64 + WIDTH as f64 * column as f64 / shades.len() as f64;
    let mut from = 0;
    for run in shades.chunk_by(|one, another| one == another) {
        let (left, right) = (edge(from), edge(from + run.len()));
        if let Some(shade) = run[0] {
            let path = &mut paths[shade];
            write!(path, "M{left:.1} {top}H{right:.1}V{}H{left:.1}z", top + ROW).expect("a string grows");
        }
        from += run.len();
    }
}

/// The strongest value of all.
fn largest(columns: &[Column]) -> f64 {
    columns.iter().flatten().flatten().fold(0.0, |most: f64, &value| most.max(value))
}

/// The paths of all shades.
fn cells(columns: &[Column], largest: f64) -> Vec<String> {
    let mut paths = vec![String::new(); SHADES];
    for class in 0..12 {
        let shades: Vec<_> = columns.iter().map(|c| c.map(|chroma| shade(chroma[class], largest))).collect();
        draw_row(&shades, TOP + (11 - class) * ROW, &mut paths);
    }
    paths
}

fn row_name(class: usize) -> String {
    let (x, y) = (LEFT - 8, TOP + (11 - class) * ROW + 13);
    format!("<text x=\"{x}\" y=\"{y}\" text-anchor=\"end\">{}</text>\n", Tonic::ALL[class])
}

/// What the shades mean: from 0 to the strongest value.
fn legend(largest: f64) -> String {
    let box_of = |shade: usize| {
        let x = LEFT + WIDTH - LEGEND_RIGHT - (SHADES - shade) * LEGEND_BOX;
        let (y, fill) = (LEGEND - 11, colour(shade));
        format!("<rect x=\"{x}\" y=\"{y}\" width=\"{LEGEND_BOX}\" height=\"13\" fill=\"{fill}\"/>")
    };
    let (first, last) = (LEFT + WIDTH - LEGEND_RIGHT - SHADES * LEGEND_BOX, LEFT + WIDTH - LEGEND_RIGHT);
    format!(
        "<g fill=\"#555\"><text x=\"{LEFT}\" y=\"{LEGEND}\">mean chroma of the loud frames; blank where none is \
         loud</text><text x=\"{}\" y=\"{LEGEND}\" text-anchor=\"end\">0</text>{}<text x=\"{}\" \
         y=\"{LEGEND}\">{largest:.3}</text></g>\n",
        first - 6,
        (0..SHADES).map(box_of).collect::<String>(),
        last + 6
    )
}

/// The map of a track with frames of some length, in seconds.
pub fn drawn(frames: impl Iterator<Item = LoudFrame>, frame: f64, duration: f64) -> String {
    let count = ((2.0 * duration / frame) as usize).clamp(1, MOST);
    let columns = columns(frames, frame / 2.0, duration, count);
    let largest = largest(&columns);
    let paths = cells(&columns, largest);
    let filled = paths.iter().enumerate().filter(|(_, path)| !path.is_empty());
    let cells = filled.map(|(shade, path)| format!("<path fill=\"{}\" d=\"{path}\"/>\n", colour(shade)));
    let height = BOTTOM - TOP;
    format!(
        "<g shape-rendering=\"crispEdges\">\n{}</g>\n\
         <rect x=\"{LEFT}\" y=\"{TOP}\" width=\"{WIDTH}\" height=\"{height}\" fill=\"none\" stroke=\"#888\"/>\n{}{}",
        cells.collect::<String>(),
        (0..12).map(row_name).collect::<String>(),
        legend(largest)
    )
}
