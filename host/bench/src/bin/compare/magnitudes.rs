//! The magnitudes of rows over one frame by each engine, beside the oracle's batch form and, for the odd rows at the
//! end, its single form; and the places behind the rows, which stay.
use crate::groups::Groups;
use crate::magnitude_inputs::{Asked, KINDS};
use bench::inputs::engines::ENGINES;
use bench::oracle;
use bench::probe::sheet;

/// Streams of the seed from here on are the magnitudes'.
const STREAM: u64 = 10_000_000;

/// No more rows are taken.
const MOST_ROWS: usize = 256;

/// Each kind comes so often for a number of rows that is asked for by name, and one in so many kinds for another.
const TURNS: usize = 4;
const EVERY: usize = 5;

/// Numbers of rows that are too many.
const TOO_MANY: [usize; 5] = [257, 258, 260, 511, 1_024];

/// By each engine, whether there are magnitudes, and the lent places afterwards.
type Left = [(bool, Vec<f32>); 2];

/// No magnitude is below 0, and each place has another number.
fn untouched(room: usize) -> Vec<f32> {
    (0..room).map(|place| -7.25 - place as f32).collect()
}

fn ours(asked: Asked) -> Left {
    let Asked { window, coefficients, samples, start, room, .. } = &asked;
    ENGINES.map(|engine| {
        let mut room = untouched(*room);
        (sheet::magnitudes(engine, window, coefficients, samples, *start, &mut room), room)
    })
}

/// The oracle's magnitudes; none where the frame is not on the track, the room too short or the rows too many.
fn wanted(asked: &Asked) -> Option<Vec<f32>> {
    let rows = asked.coefficients.len();
    let frame = asked.frame().filter(|_| rows <= asked.room && rows <= MOST_ROWS)?;
    Some(oracle::magnitudes::magnitudes(&asked.window, &asked.coefficients, frame))
}

fn theirs(asked: Asked) -> Left {
    let (mut room, wanted) = (untouched(asked.room), wanted(&asked));
    room.iter_mut().zip(wanted.iter().flatten()).for_each(|(place, x)| *place = *x);
    [(wanted.is_some(), room.clone()), (wanted.is_some(), room)]
}

/// Every kind, each with every one of these numbers of rows.
fn of_rows(seed: u64, counts: impl Iterator<Item = usize>) -> impl Iterator<Item = Asked> {
    let inputs = counts.flat_map(|rows| (0..TURNS * KINDS).map(move |nth| (rows, nth)));
    inputs.map(move |(rows, nth)| asked(seed, rows, nth))
}

fn asked(seed: u64, rows: usize, nth: usize) -> Asked {
    Asked::new(seed, STREAM + (rows * TURNS * KINDS + nth) as u64, rows, nth % KINDS)
}

/// Other numbers of rows, each with some of the kinds.
fn of_other_rows(seed: u64) -> impl Iterator<Item = Asked> {
    let inputs = (10..253).flat_map(|rows| (rows % EVERY..KINDS).step_by(EVERY).map(move |nth| (rows, nth)));
    inputs.map(move |(rows, nth)| asked(seed, rows, nth))
}

/// The call with the frame where none is, and with a room that is too short.
fn misplaced(whole: &Asked) -> impl Iterator<Item = Asked> {
    let (length, size, rows) = (whole.samples.len(), whole.window.len(), whole.coefficients.len());
    let starts = [length - size + 1, length + 1, usize::MAX - size, size.wrapping_neg(), usize::MAX];
    let rooms = [0, rows / 2, rows.saturating_sub(1)];
    let elsewhere = starts.map(|start| Asked { start, ..whole.clone() });
    elsewhere.into_iter().chain(rooms.map(|room| Asked { room, ..whole.clone() }))
}

/// Calls for some numbers of rows, too many among them, as they are and misplaced.
fn about_limits(seed: u64) -> impl Iterator<Item = Asked> {
    let some = [0, 1, 3, 4, 5, 8, 9, 60, 255, 256].into_iter().chain(TOO_MANY);
    let whole = some.flat_map(move |rows| (0..KINDS).step_by(31).map(move |nth| asked(seed, rows, nth)));
    whole.flat_map(|whole| misplaced(&whole).chain([whole.clone()]).collect::<Vec<_>>())
}

pub fn compare(groups: &mut Groups) {
    let seed = groups.seed;
    groups.group("magnitudes of 0 to 9 rows", of_rows(seed, 0..=9), ours, theirs);
    groups.group("magnitudes of 253 to 256 rows", of_rows(seed, 253..=256), ours, theirs);
    groups.group("magnitudes of 10 to 252 rows", of_other_rows(seed), ours, theirs);
    groups.group("magnitudes, no frame, no room or too many rows", about_limits(seed), ours, theirs);
}
