//! Frames of a track with rows over them, from a seed: any coefficients, windows and samples.
use crate::filters_tracks;
use crate::groups::Compared;
use bench::inputs::chromas::unit;
use bench::inputs::dice::Dice;
use bench::inputs::random::patterns;

/// Frames are so long, and tracks so much longer, in turn.
const SIZES: [usize; 12] = [0, 1, 2, 3, 4, 5, 31, 32, 33, 64, 100, 333];
const LONGER: [usize; 4] = [0, 1, 7, 60];

/// So many places more than rows are lent, in turn.
const MORE_ROOM: [usize; 4] = [0, 1, 3, 9];

/// Coefficients at the ends of what a sheet has, and about 0.
const AT_ENDS: [f32; 8] = [0.0, -0.0, 2.0, -2.0, 1e-45, -1e-45, 2.0f32.next_down(), f32::MIN_POSITIVE];

/// Coefficients that no sheet has.
const OUTSIDE: [f32; 8] = [2.0f32.next_up(), -2.5, 3.0, -1e3, 1e19, -1e30, f32::MAX, f32::MIN];

const NOT_FINITE: [f32; 4] = [f32::NAN, -f32::NAN, f32::INFINITY, f32::NEG_INFINITY];

/// A kind of number, each from a random pattern.
#[derive(Clone, Copy)]
struct Numbers {
    name: &'static str,
    number: fn(u64) -> f32,
}

const COEFFICIENTS: [Numbers; 6] = [
    Numbers { name: "from -2 to 2", number: of_sheet },
    Numbers { name: "at the ends and about 0", number: |pattern| one_of(&AT_ENDS, pattern) },
    Numbers { name: "subnormal", number: |pattern| of_sheet(pattern) * f32::MIN_POSITIVE / 4.0 },
    Numbers { name: "outside", number: |pattern| one_of(&OUTSIDE, pattern) },
    Numbers { name: "not finite here and there", number: |pattern| strewn(of_sheet, pattern) },
    Numbers { name: "of any pattern", number: |pattern| f32::from_bits(pattern as u32) },
];

const WINDOWS: [Numbers; 7] = [
    Numbers { name: "from 0 to 1", number: unit },
    Numbers { name: "of ones", number: |_| 1.0 },
    Numbers { name: "of zeros of both signs", number: |pattern| one_of(&[0.0, -0.0], pattern) },
    Numbers { name: "subnormal", number: |pattern| unit(pattern) * f32::MIN_POSITIVE },
    Numbers { name: "near the overflow", number: |pattern| of_sheet(pattern) * f32::MAX / 2.0 },
    Numbers { name: "not finite here and there", number: |pattern| strewn(unit, pattern) },
    Numbers { name: "of any pattern", number: |pattern| f32::from_bits(pattern as u32) },
];

/// So many kinds of coefficients, windows and tracks there are together.
pub const KINDS: usize = COEFFICIENTS.len() * WINDOWS.len() * filters_tracks::KINDS.len();

/// A coefficient that a sheet may have.
fn of_sheet(pattern: u64) -> f32 {
    4.0 * unit(pattern) - 2.0
}

fn one_of(choices: &[f32], pattern: u64) -> f32 {
    choices[(pattern >> 16) as usize % choices.len()]
}

/// In one of thirty-two places not finite.
fn strewn(usual: fn(u64) -> f32, pattern: u64) -> f32 {
    if pattern.is_multiple_of(32) { one_of(&NOT_FINITE, pattern) } else { usual(pattern) }
}

/// Rows over the frame that starts at `start`, and how many places are lent for their magnitudes.
#[derive(Clone)]
pub struct Asked {
    pub what: String,
    pub window: Vec<f32>,
    pub coefficients: Vec<f32>,
    pub samples: Vec<f32>,
    pub start: usize,
    pub room: usize,
}

impl Compared for Asked {
    fn same(&self, other: &Self) -> bool {
        self.shown() == other.shown()
    }

    fn shown(&self) -> String {
        let Self { what, window, coefficients, samples, start, room } = self;
        let lists = [window, coefficients, samples].map(Compared::shown);
        format!("{what}, start {start}, room {room}; window, coefficients, samples: {}", lists.join("; "))
    }
}

impl Asked {
    /// Of the nth kind, with so many rows; a room that suffices, and a frame on the track.
    pub fn new(seed: u64, stream: u64, rows: usize, kind: usize) -> Self {
        let (coefficients, kind) = (COEFFICIENTS[kind % COEFFICIENTS.len()], kind / COEFFICIENTS.len());
        let (window, kind) = (WINDOWS[kind % WINDOWS.len()], kind / WINDOWS.len());
        let track = filters_tracks::KINDS[kind % filters_tracks::KINDS.len()];
        let mut dice = Dice::new(seed, stream);
        let (size, longer) = (dice.one_of(&SIZES), dice.one_of(&LONGER));
        let mut numbers = |kind: Numbers, count| {
            patterns(seed, dice.below(1 << 40) as u64).map(kind.number).take(count).collect()
        };
        Self {
            what: format!("coefficients {}, window {}, {}", coefficients.name, window.name, track.name),
            window: numbers(window, size),
            coefficients: numbers(coefficients, rows),
            samples: track.track(seed, stream, size + longer),
            start: dice.below(longer + 1),
            room: rows + dice.one_of(&MORE_ROOM),
        }
    }

    /// The frame; none where it is not wholly on the track.
    pub fn frame(&self) -> Option<&[f32]> {
        let end = self.start.checked_add(self.window.len())?;
        self.samples.get(self.start..end)
    }
}
