//! Tracks for segments, from a seed.
use crate::packed::LONGEST;
use crate::windows::{duration, is_brief, rows_asked};
use bench::inputs::chromas::{Kind, plain_kinds_from};
use bench::inputs::dice::Dice;
use bench::inputs::engines::ENGINES;
use bench::oracle::key_lime::expose::estimates;
use bench::oracle::{config, frames};
use bench::probe::segments::Track;
use ulyptesh::{Chroma, Settings};

const MOST_FRAMES: usize = 120;

/// Rate, frame size and hop size.
const SHAPES: [(u32, usize, usize); 7] = [
    (44_100, 4_096, 2_048),
    (48_000, 4_096, 2_048),
    (44_100, 4_096, 12_000),
    (8_000, 4_096, 2_048),
    (8_000, 1_024, 4_000),
    (22_050, 333, 5_000),
    (2_000, 32, 1_000),
];

const HOPS: [f32; 8] = [0.5, 0.5, 0.500_000_06, 0.75, 1.1, 2.0, 6.0, 20.0];

const MINIMA: [f32; 8] = [0.0, 0.5, 1.3, 2.0, 12.0, 12.0, 1e9, -1.0];

const ODD_CENTRES: [f64; 6] = [f64::NAN, f64::INFINITY, f64::NEG_INFINITY, -0.0, -1.0, 1e300];

/// A track, and the lengths of its rows: four lists for estimates, five for segments.
#[derive(Debug, Clone)]
pub struct Asked {
    pub track: Track,
    pub room: [usize; 9],
}

/// Tracks from streams of the seed.
pub struct Tracks {
    dice: Dice,
    kinds: Vec<Kind>,
}

impl Tracks {
    pub fn new(seed: u64, stream: u64) -> Self {
        Self { dice: Dice::new(seed, stream), kinds: plain_kinds_from(seed, stream + 1).collect() }
    }

    /// Three tones of a key, and little else.
    fn triad(&mut self) -> Chroma {
        let (root, third) = (self.dice.below(12), 3 + self.dice.below(2));
        let mut chroma = [0.0; 12].map(|_: f32| self.dice.unit() / 10.0);
        [0, third, 7].into_iter().for_each(|tone| chroma[(root + tone) % 12] = 1.0);
        chroma
    }

    /// Triads or chromas of one kind, some for a while, and zeros among them.
    fn chromas(&mut self, count: usize) -> Vec<Chroma> {
        let (kind, stay) = (self.dice.below(2 * self.kinds.len()), 1 + self.dice.below(20));
        let mut chroma = [0.0; 12];
        let mut chromas = Vec::new();
        for _ in 0..count {
            if self.dice.one_in(stay) {
                chroma = match self.kinds.get_mut(kind) {
                    _ if self.dice.one_in(12) => [0.0; 12],
                    Some(kind) => kind.chromas.next().expect("chromas never end"),
                    None => self.triad(),
                };
            }
            chromas.push(chroma);
        }
        chromas
    }

    fn settings(&mut self, rate: u32, window: f32, hop: f32) -> Settings {
        Settings::for_rate(rate).with(|settings| {
            settings.local_window_seconds = window;
            settings.local_hop_seconds = hop;
            settings.segment_confidence_threshold = self.dice.one_of(&[0.35, 0.1, 0.02, 0.0]);
            settings.minimum_segment_seconds = self.dice.one_of(&MINIMA);
            settings.engine = self.dice.one_of(&ENGINES);
        })
    }

    /// The confidence for a split may be that of an estimate, or a step beside it.
    fn track(&mut self, settings: Settings, samples: usize, centres: Vec<f64>) -> Track {
        let values = self.chromas(centres.len());
        let (key, confidence) = (self.dice.key(), self.dice.unit());
        let mut track = Track { settings, samples, key, confidence, centres, values };
        let found = if is_brief(&track) || self.dice.one_in(3) {
            vec![]
        } else {
            estimates(&frames(&track), duration(&track), config(&settings))
        };
        if !found.is_empty() {
            let sure = self.dice.one_of(&found).2;
            let near = self.dice.one_of(&[sure, sure.next_up(), sure.next_down()]);
            track.settings.segment_confidence_threshold = near;
        }
        track
    }

    fn window(&mut self, seconds: f64) -> f32 {
        let seconds = seconds as f32;
        self.dice.one_of(&[0.05, 0.3, 0.5, 1.0, 2.0, 3.3, 12.0, seconds / 2.0, seconds, 2.0 * seconds])
    }

    /// Centres as the library makes them, with quiet stretches between.
    pub fn regular(&mut self) -> Track {
        let (rate, size, hop) = self.dice.one_of(&SHAPES);
        let mut position = 0;
        let mut centres = Vec::new();
        for _ in 0..self.dice.below(MOST_FRAMES + 1) {
            position += if self.dice.one_in(10) { 1 + self.dice.below(20) } else { 1 };
            centres.push((position * hop + size / 2) as f64 / f64::from(rate));
        }
        let samples = position * hop + size + self.dice.below(4 * hop);
        let window = self.window(samples as f64 / f64::from(rate));
        let local_hop = self.dice.one_of(&HOPS);
        let settings = self.settings(rate, window, local_hop).with(|settings| {
            (settings.frame_size, settings.hop_size) = (size, hop);
        });
        self.track(settings, samples, centres)
    }

    /// At the border of a window, a step beside it, odd, or anywhere.
    fn centre(&mut self, track_seconds: f64, window: f32, hop: f32) -> f64 {
        let start = f64::from(hop) * self.dice.below(1 + (track_seconds / f64::from(hop)) as usize) as f64;
        let border = if self.dice.one_in(2) { start } else { start + f64::from(window) };
        match self.dice.below(12) {
            0 => self.dice.one_of(&ODD_CENTRES),
            1..4 => border,
            4 => border.next_up(),
            5 => border.next_down(),
            _ => f64::from(self.dice.unit()) * track_seconds,
        }
    }

    /// Centres in no order, many at a window's border, on a track of up to a minute.
    pub fn irregular(&mut self) -> Track {
        let (rate, hop) = (self.dice.one_of(&SHAPES).0, self.dice.one_of(&HOPS));
        let samples = self.dice.below(60 * rate as usize);
        self.anywhere(rate, samples, hop)
    }

    /// The same on a track as long as the longest or a few samples shorter, with hops from half a second to one.
    pub fn longest(&mut self) -> Track {
        let (rate, any) = (self.dice.one_of(&SHAPES).0, 0.5 + self.dice.unit() / 2.0);
        let hop = self.dice.one_of(&[0.5, 0.5_f32.next_up(), any, any]);
        let samples = LONGEST as usize * rate as usize - self.dice.below(4);
        self.anywhere(rate, samples, hop)
    }

    fn anywhere(&mut self, rate: u32, samples: usize, hop: f32) -> Track {
        let seconds = samples as f64 / f64::from(rate);
        let window = self.window(seconds);
        let count = self.dice.below(MOST_FRAMES + 1);
        let centres = (0..count).map(|_| self.centre(seconds, window, hop)).collect();
        let settings = self.settings(rate, window, hop);
        self.track(settings, samples, centres)
    }

    /// Centres in order, some of them equal, many at a window's border, and seldom NaNs at the end.
    pub fn in_order(&mut self) -> Track {
        let mut track = self.irregular();
        track.centres.sort_by(f64::total_cmp);
        for i in 1..track.centres.len() {
            if self.dice.one_in(5) {
                track.centres[i] = track.centres[i - 1];
            }
        }
        if !self.dice.one_in(5) {
            track.centres.retain(|centre| !centre.is_nan());
        }
        track.values.truncate(track.centres.len());
        track
    }

    /// As long as a window and a hop, or a sample more or less.
    pub fn at_window_and_hop(&mut self) -> Track {
        let (rate, window, hop) = if self.dice.one_in(2) {
            (8_000, self.dice.one_of(&[0.5, 1.25, 12.0]), self.dice.one_of(&[0.5, 0.75, 6.0]))
        } else {
            // at 2^31 Hz a sample is one step of a duration from 2^21 s on
            (
                1 << 31,
                (1 << 20) as f32 * (1.0 + self.dice.unit()),
                (1 << 20) as f32 * (1.0 + self.dice.unit()),
            )
        };
        let seconds = f64::from(window) + f64::from(hop);
        let samples = (seconds * f64::from(rate)) as usize + self.dice.below(3) - 1;
        let count = self.dice.below(20);
        let centres = (0..count).map(|_| self.centre(seconds, window, hop)).collect();
        let settings = self.settings(rate, window, hop);
        self.track(settings, samples, centres)
    }

    /// A hop that is not above 0, on a track of a window at least.
    pub fn without_hop(&mut self) -> Track {
        let mut track = self.irregular();
        while duration(&track) < track.settings.local_window_seconds.into() {
            track = self.irregular();
        }
        track.settings.local_hop_seconds = self.dice.one_of(&[0.0, -0.0, -0.5, f32::NAN]);
        track
    }

    /// All bins are equal.
    fn equal(&mut self) -> Chroma {
        let any = self.dice.unit();
        [self.dice.one_of(&[0.0, -0.0, 1.0 / 12.0, 1.0, any, any]); 12]
    }

    /// Frames whose bins are all equal, so that a window of them has no shape, and stretches of triads among them
    /// unless it is wholly so.
    pub fn without_shape(&mut self, wholly: bool) -> Track {
        let (mut track, stay, mut equal) = (self.regular(), 1 + self.dice.below(30), true);
        for chroma in &mut track.values {
            equal = if !wholly && self.dice.one_in(stay) { !equal } else { equal };
            *chroma = if equal { self.equal() } else { self.triad() };
        }
        track
    }

    /// As many rows as are asked for, in some lists a few more.
    pub fn with_room(&mut self, track: Track) -> Asked {
        let rows = rows_asked(&track);
        let more = if self.dice.one_in(4) { 4 } else { 1 };
        Asked { track, room: [rows; 9].map(|rows| rows + self.dice.below(more)) }
    }

    /// One list has a row too few.
    pub fn without_room(&mut self, track: Track) -> Asked {
        let mut asked = self.with_room(track);
        asked.room[self.dice.below(9)] = rows_asked(&asked.track) - 1;
        asked
    }
}
