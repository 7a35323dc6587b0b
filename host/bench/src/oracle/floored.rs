//! Chromas whose divisors lie about their floor, searched for with the oracle's divisors.
//!
//! All 96 divisors of a chroma share its own energy, and each grows with the energy of its profile. Added up from
//! different roots on, the eight profiles have 17 different energies. The lowest, 0.00045838242, is the learned minor
//! one's at five roots, 3, 4, 5, 6 and 8, so these five are held up wherever any divisor is: never one of the 96 alone.
//! Nor are 35 ever, as no f32 for the chroma's energy parts 14.676667 from 14.676668. All other sums are met, from the
//! lowest energy upward: `LADDER`.
use super::shapes::{CORRELATIONS, FLOOR, divisor_at, divisors, held_up, is_held_up};
use crate::inputs::chromas::{Draw, Kind, draws, uniform, unit};
use std::iter;
use ulyptesh::Chroma;

/// How many divisors are held up where any is, and the place of one that is the last of so many.
const LADDER: [(usize, usize); 16] = [
    (5, 87),
    (8, 85),
    (12, 84),
    (21, 72),
    (24, 75),
    (26, 60),
    (36, 68),
    (48, 12),
    (51, 24),
    (72, 25),
    (77, 0),
    (82, 2),
    (84, 4),
    (86, 48),
    (93, 50),
    (CORRELATIONS, 51),
];

/// The place of a lowest divisor.
const LOWEST: usize = LADDER[0].1;

/// So many draws are searched for one chroma at most.
const MOST_DRAWS: usize = 1_000;

/// So many numbers on each side of a border are looked at.
const BESIDE: u32 = 8;

/// Whether so many of the 96 divisors can be held up.
pub fn can_be_held_up(count: usize) -> bool {
    count == 0 || LADDER.iter().any(|&(held_up, _)| held_up == count)
}

/// What is said of a chroma: how many divisors are held up, at least and at most, and where it is said how many steps
/// the lowest and the highest lie above the floor.
#[derive(Debug, Clone, Copy)]
pub struct Said {
    held_up: (usize, usize),
    lowest: Option<i32>,
    highest: Option<i32>,
}

const fn exactly(held_up: usize) -> Said {
    Said { held_up: (held_up, held_up), lowest: None, highest: None }
}

/// From the floor up to a divisor.
fn steps(divisor: f32) -> i32 {
    divisor.to_bits().wrapping_sub(FLOOR.to_bits()) as i32
}

impl Said {
    pub fn holds(&self, chroma: &Chroma) -> bool {
        let all = divisors(chroma);
        let (least, most) = self.held_up;
        let (lowest, highest) =
            (all.into_iter().fold(f32::MAX, f32::min), all.into_iter().fold(0.0, f32::max));
        (least..=most).contains(&all.into_iter().filter(|&divisor| is_held_up(divisor)).count())
            && self.lowest.is_none_or(|wanted| steps(lowest) == wanted)
            && self.highest.is_none_or(|wanted| steps(highest) == wanted)
    }

    /// The place of the last divisor that is held up, or the lowest one's where none is.
    fn border(&self) -> usize {
        let last = LADDER.iter().find(|&&(held_up, _)| held_up == self.held_up.0);
        last.map_or(LOWEST, |&(_, place)| place)
    }

    /// The chroma so small that this holds.
    fn found(&self, chroma: Chroma) -> Option<Chroma> {
        let scaled = |pattern| chroma.map(|x| x * f32::from_bits(pattern));
        let border = last_held_up(self.border(), scaled)?;
        (border - BESIDE..=border + BESIDE).map(scaled).find(|near| self.holds(near))
    }
}

/// Two neighbours from 2^-60 to 1 such that the divisor is held up with the one and not with the other: the lower
/// one's pattern.
fn last_held_up(place: usize, chroma_of: impl Fn(u32) -> Chroma) -> Option<u32> {
    let is_held_up = |pattern| is_held_up(divisor_at(place, &chroma_of(pattern)));
    let (mut low, mut high) = (2f32.powi(-60).to_bits(), 1f32.to_bits());
    if !is_held_up(low) || is_held_up(high) {
        return None;
    }
    while high - low > 1 {
        let middle = low + (high - low) / 2;
        if is_held_up(middle) {
            low = middle;
        } else {
            high = middle;
        }
    }
    Some(low)
}

/// Bins about one level, whose spread is the largest with which divisors are held up, and the next one.
fn nearly_equal(draw: Draw) -> Option<[Chroma; 2]> {
    let level = if draw.whole & 1 == 0 { 1.0 / 12.0 } else { unit(draw.whole) };
    let spread = |pattern| draw.bins.map(|bin| level + f32::from_bits(pattern) * (unit(bin) - 0.5));
    last_held_up(LOWEST, spread).map(|border| [border, border + 1].map(spread))
}

/// A kind, and what is said of its chromas in turn.
pub struct Floored {
    pub kind: Kind,
    pub said: Vec<Said>,
}

impl Floored {
    fn new(name: &'static str, seed: u64, stream: u64, said: Vec<Said>) -> Self {
        let mut run = draws(seed, stream);
        let search = move |said: Said| {
            let mut tried = run.by_ref().take(MOST_DRAWS);
            tried.find_map(|draw| said.found(uniform(draw))).expect("a chroma of which this holds")
        };
        let chromas = Box::new(said.clone().into_iter().cycle().map(search));
        Self { kind: Kind { name, chromas }, said }
    }
}

/// How many divisors chromas have held up that lie about each border in turn.
pub fn about_a_border(seed: u64, stream: u64) -> impl Iterator<Item = usize> {
    let places = LADDER.iter().map(|&(_, place)| place).cycle();
    places.zip(draws(seed, stream)).flat_map(|(place, draw)| {
        let chroma = uniform(draw);
        let scaled = move |pattern| chroma.map(|x| x * f32::from_bits(pattern));
        let borders = last_held_up(place, scaled).into_iter();
        borders
            .flat_map(move |border| border - BESIDE..=border + BESIDE)
            .map(move |near| held_up(&scaled(near)))
    })
}

/// All kinds about the floor of divisors.
pub fn every_kind(seed: u64) -> Vec<Floored> {
    let none = exactly(0);
    let every: Vec<Said> = iter::once(0).chain(LADDER.map(|(held_up, _)| held_up)).map(exactly).collect();
    let nearly_equal = Floored {
        kind: Kind {
            name: "bins nearly equal, lowest divisor about 2^-23",
            chromas: Box::new(draws(seed, 46).filter_map(nearly_equal).flatten()),
        },
        said: vec![Said { held_up: (5, CORRELATIONS), ..none }, none],
    };
    let kind = |name, stream, said| Floored::new(name, seed, stream, vec![said]);
    vec![
        kind("no divisor held up, the lowest 2^-23", 47, Said { lowest: Some(0), ..none }),
        kind("no divisor held up, the lowest a step above", 48, Said { lowest: Some(1), ..none }),
        kind("five divisors held up by a step", 49, Said { lowest: Some(-1), ..exactly(5) }),
        kind("all but three divisors held up", 56, Said { highest: Some(0), ..exactly(93) }),
        kind("all divisors held up, the last by a step", 57, Said { highest: Some(-1), ..exactly(96) }),
        Floored::new("every number of divisors held up", seed, 58, every),
        nearly_equal,
    ]
}
