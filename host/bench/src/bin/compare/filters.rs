//! The filters over a lent sheet, beside the oracle's: Goertzel by both engines, and constant-Q.
use crate::filters_tracks::KINDS;
use crate::groups::{Compared, Groups};
use crate::sheets::{Judged, built, heads};
use bench::inputs::dice::Dice;
use bench::inputs::engines::ENGINES;
use bench::inputs::random::patterns;
use bench::oracle::tables::Tables;
use bench::probe::sheet::{constant_q, goertzel};
use std::rc::Rc;
use ulyptesh::Chroma;
use ulyptesh::calls::SheetHead;

/// A sheet is compared on so many frames at most, and on two of each kind of track at least.
const MOST_FRAMES: usize = 450;

/// So many samples go through resonators for one sheet before its frames are cut down.
const STEPS: usize = 40_000_000;

/// Tracks are this much longer than a frame, in turn.
const LONGER: [usize; 6] = [0, 1, 97, 700, 1_500, 24_000];

/// Streams of the seed from here on are the filters', and from there on those of sheets by their number of rows.
const STREAM: u64 = 1_000;
const ROWS_STREAM: u64 = 3_000_000;

/// Sheets by their number of rows are counted from here on, behind the others.
const SHEETS: usize = 10_000;

/// A rate at which all 256 notes have a Goertzel row.
const ALL_NOTES: u32 = 50_000_000;

/// A track with a frame on it and a centre, and the tables to read it by.
#[derive(Clone)]
struct Frame {
    tables: Rc<Tables>,
    kind: &'static str,
    track: Rc<Vec<f32>>,
    start: usize,
    centre: usize,
}

impl Compared for Frame {
    fn same(&self, other: &Self) -> bool {
        Rc::ptr_eq(&self.track, &other.track) && (self.start, self.centre) == (other.start, other.centre)
    }

    fn shown(&self) -> String {
        let Self { tables, kind, track, start, centre } = self;
        format!("{:?}, {kind}, {} samples, start {start}, centre {centre}", tables.sheet.head, track.len())
    }
}

/// Goertzel of the frame by each engine, and constant-Q around the centre.
type Both = ([Chroma; 2], Chroma);

fn ours(frame: Frame) -> Both {
    let Frame { tables, track, start, centre, .. } = frame;
    let by_each = ENGINES.map(|engine| goertzel(engine, &tables.sheet, &track, start));
    (by_each, constant_q(&tables.sheet, &track, centre))
}

fn theirs(frame: Frame) -> Both {
    let Frame { tables, track, start, centre, .. } = frame;
    ([tables.goertzel(&track, start); 2], tables.constant_q(&track, centre))
}

/// One of the places from 0 to the last, both ends more often than others.
fn place(pattern: u64, last: usize) -> usize {
    match pattern % 8 {
        0 => 0,
        1 => last,
        _ => (pattern >> 8) as usize % (last + 1),
    }
}

/// How many samples go through resonators for one frame on a track of this length.
fn steps(tables: &Tables, length: usize) -> usize {
    let sheet = &tables.sheet;
    let constant_q = sheet.constant_q_lengths.iter().map(|&window| length.min(window as usize));
    sheet.goertzel_coefficients.len() * sheet.window.len() + constant_q.sum::<usize>()
}

fn frame(seed: u64, stream: u64, tables: &Rc<Tables>, nth: usize) -> Frame {
    let kind = KINDS[nth % KINDS.len()];
    let size = tables.sheet.head.frame_size;
    let mut draws = patterns(seed, stream + nth as u64);
    let mut draw = || draws.next().expect("patterns never end");
    let length = size + LONGER[draw() as usize % LONGER.len()];
    let start = place(draw(), length - size);
    let centre = if draw() % 2 == 0 { start + size / 2 } else { place(draw(), length) };
    let track = Rc::new(kind.track(seed, draw(), length));
    Frame { tables: Rc::clone(tables), kind: kind.name, track, start, centre }
}

/// The frames of one sheet, fewer where each takes longer.
fn frames(seed: u64, nth_sheet: usize, tables: Tables) -> impl Iterator<Item = Frame> {
    let typical = steps(&tables, tables.sheet.head.frame_size + LONGER[4]);
    let count = (STEPS / (typical + 1)).clamp(2 * KINDS.len(), MOST_FRAMES);
    let tables = Rc::new(tables);
    let stream = STREAM + (nth_sheet * MOST_FRAMES) as u64;
    (0..count).map(move |nth| frame(seed, stream, &tables, nth))
}

/// A Goertzel table of so many rows, from any note on that leaves room for them, with any coefficients of a sheet.
fn of_rows(seed: u64, rows: usize, frame_size: usize) -> Tables {
    let mut dice = Dice::new(seed, ROWS_STREAM + rows as u64);
    let lowest = dice.below(257 - rows);
    let (minimum_midi_note, maximum_midi_note) =
        if rows == 0 { (1, 0) } else { (lowest as u8, (lowest + rows - 1) as u8) };
    let coefficients: Vec<f32> = (0..rows).map(|_| 4.0 * dice.unit() - 2.0).collect();
    let head = SheetHead { rate: ALL_NOTES, minimum_midi_note, maximum_midi_note, frame_size };
    let tables = Tables::of_goertzel(head, &coefficients);
    assert_eq!(tables.sheet.goertzel_coefficients, coefficients);
    tables
}

/// Goertzel chromas of these numbers of rows.
fn compare_rows(groups: &mut Groups, name: &str, counts: impl Iterator<Item = usize>) {
    let seed = groups.seed;
    let sheets = counts.flat_map(|rows| [32, 100, 333].map(|size| (rows, size)));
    let inputs = sheets.flat_map(|(rows, size)| frames(seed, SHEETS + rows, of_rows(seed, rows, size)));
    groups.group(&format!("filters, {name} Goertzel rows"), inputs, ours, theirs);
}

pub fn compare(groups: &mut Groups) {
    let seed = groups.seed;
    let oracles = |judged: Judged| Judged { sheet: Tables::new(judged.sheet.head).sheet, ..judged };
    groups.group("sheets of the oracle", heads().map(built), |judged| judged, oracles);
    for size in [32, 4_096, 65_536] {
        let sheets = heads().enumerate().filter(|(_, head)| head.frame_size == size);
        let inputs = sheets.flat_map(|(nth, head)| frames(seed, nth, Tables::new(head)));
        groups.group(&format!("filters, frames of {size}"), inputs, ours, theirs);
    }
    compare_rows(groups, "0 to 9", 0..=9);
    compare_rows(groups, "253 to 256", 253..=256);
    compare_rows(groups, "10 to 252", (10..=252).step_by(23));
}
