//! Chromas where first and second place are close, searched for with the oracle's answers: ties, and both
//! borders of the choice between relative keys.
use super::key_lime::expose::{are_relative_keys, classify_key_impl, key_from_index};
use crate::inputs::chromas::{Draw, Kind, draws, plain_kinds, scaled, uniform, unit};
use std::array;
use ulyptesh::Chroma;

/// The margin up to which a relative key may be taken.
const MARGIN: f32 = 0.05;

/// The second tonic has to exceed this many times the first.
const LOUDER: f32 = 1.2;

/// Its best score is over twice its second, a relative key's with the louder tonic. Held-up divisors shrink
/// both, and a margin can be 0.05 to the bit only where the second lies below 2^-4.
const STEEP: Chroma = [0.46, 0.53, 0.05, 0.86, 0.68, 0.33, 1.0, 0.93, 0.17, 0.74, 0.17, 0.32];

/// First and second place before the choice between relative keys, as key numbers, and by how much.
struct Places {
    keys: (usize, usize),
    margin: f32,
}

impl Places {
    fn first_tonic(&self) -> usize {
        self.keys.0 % 12
    }

    fn second_tonic(&self) -> usize {
        self.keys.1 % 12
    }

    fn relative(&self) -> bool {
        are_relative_keys(key_from_index(self.keys.0), key_from_index(self.keys.1))
    }

    /// The fifth of the major key, which its relative minor lacks: it moves the margin.
    fn fifth_of_major(&self) -> usize {
        (self.keys.0.min(self.keys.1) + 7) % 12
    }
}

/// None where no score is a number.
fn places(chroma: &Chroma) -> Option<Places> {
    let (_, best, second, scores) = classify_key_impl(chroma);
    let mut in_order = (0..12).flat_map(|root| [root, 12 + root]);
    let first = in_order.clone().find(|&key| scores[key] == best)?;
    let next = in_order.find(|&key| key != first && scores[key] == second)?;
    Some(Places { keys: (first, next), margin: best - second })
}

fn with_bin(chroma: &Chroma, bin: usize, x: f32) -> Chroma {
    let mut changed = *chroma;
    changed[bin] = x;
    changed
}

/// The chroma with a positive number in a bin, and with the numbers on both sides of it, one step apart.
fn around<const N: usize>(chroma: &Chroma, bin: usize, x: f32) -> [Chroma; N] {
    let below = (N as u32 - 1) / 2;
    let lowest = x.to_bits().wrapping_sub(below);
    array::from_fn(|nth| with_bin(chroma, bin, f32::from_bits(lowest.wrapping_add(nth as u32))))
}

/// Two neighbours from 0 to `top` such that the test holds with one in the bin and not with the other: the
/// lower one.
fn border_in_bin(chroma: &Chroma, bin: usize, top: f32, test: impl Fn(&Chroma) -> bool) -> Option<f32> {
    let holds = |pattern| test(&with_bin(chroma, bin, f32::from_bits(pattern)));
    let (mut low, mut high) = (0, top.to_bits());
    let at_low = holds(low);
    if holds(high) == at_low {
        return None;
    }
    while high - low > 1 {
        let middle = low + (high - low) / 2;
        if holds(middle) == at_low {
            low = middle;
        } else {
            high = middle;
        }
    }
    Some(f32::from_bits(low))
}

fn keeps(chroma: &Chroma, found: &Places) -> bool {
    places(chroma).is_some_and(|now| now.keys == found.keys)
}

fn relative_and_close(found: &Places) -> bool {
    found.relative() && found.margin < 2.0 * MARGIN
}

fn not_relative_but_close(found: &Places) -> bool {
    !found.relative() && found.first_tonic() != found.second_tonic() && found.margin < 2.0 * MARGIN
}

/// The second tonic at 1.2 times the first, one step below and one above, with both places kept.
fn at_tonic_border(chroma: Chroma, wanted: fn(&Places) -> bool) -> Option<[Chroma; 3]> {
    let found = places(&chroma).filter(wanted)?;
    let border = chroma[found.first_tonic()] * LOUDER;
    let moved = around(&chroma, found.second_tonic(), border);
    moved.iter().all(|near| keeps(near, &found)).then_some(moved)
}

/// The second tonic from 1.25 to 1.5 times the first, so that only the margin decides.
fn with_louder_second(chroma: Chroma, choice: u64) -> Option<Chroma> {
    let found = places(&chroma).filter(Places::relative)?;
    let energy = chroma[found.first_tonic()] * (1.25 + unit(choice) / 4.0);
    Some(with_bin(&chroma, found.second_tonic(), energy)).filter(|louder| keeps(louder, &found))
}

/// The number of a bin, from 0 to `top`, where the lead of the first of two keys over the second passes 0.05.
fn margin_border(chroma: &Chroma, found: &Places, top: f32) -> Option<f32> {
    let lead_is_above = |near: &Chroma| {
        let scores = classify_key_impl(near).3;
        scores[found.keys.0] - scores[found.keys.1] > MARGIN
    };
    border_in_bin(chroma, found.fifth_of_major(), top, lead_is_above)
}

/// The numbers of one bin where the margin passes 0.05, four on each side, with both places kept.
fn at_margin_border(draw: Draw) -> Option<[Chroma; 8]> {
    let choice = draw.whole;
    let chroma = with_louder_second(uniform(draw), choice)?;
    let found = places(&chroma).filter(relative_and_close)?;
    let border = margin_border(&chroma, &found, 1.0)?;
    let moved = around(&chroma, found.fifth_of_major(), border);
    moved.iter().all(|near| keeps(near, &found)).then_some(moved)
}

/// The steep chroma from another root, each bin off by up to a fiftieth, and small enough for a margin of 0.05.
fn steep(draw: Draw) -> Option<Chroma> {
    let root = (draw.whole % 12) as usize;
    let bin = |pitch_class: usize| {
        STEEP[(pitch_class + 12 - root) % 12] * (0.98 + unit(draw.bins[pitch_class]) / 25.0)
    };
    let held_up = scaled(array::from_fn(bin), -30);
    let found = places(&held_up).filter(Places::relative)?;
    Some(held_up.map(|x| x * (MARGIN / found.margin)))
}

/// The numbers of one bin where the margin passes 0.05, with one of them 0.05 to the bit.
fn at_exact_margin(draw: Draw) -> Option<[Chroma; 9]> {
    let chroma = steep(draw)?;
    let found = places(&chroma)?;
    let bin = found.fifth_of_major();
    let border = margin_border(&chroma, &found, 2.0 * chroma[bin])?;
    let exact = |near: &Chroma| places(near).is_some_and(|now| now.margin == MARGIN);
    Some(around(&chroma, bin, border)).filter(|moved| moved.iter().any(exact))
}

fn is_tie(chroma: &Chroma) -> bool {
    places(chroma).is_some_and(|found| found.margin == 0.0)
}

/// The same after 6, 4, 3 or 2 bins, so that keys that far apart tie but for rounding.
fn symmetric(draw: Draw) -> Chroma {
    let period = [6, 4, 3, 2][draw.whole as usize % 4];
    array::from_fn(|bin| unit(draw.bins[bin % period]))
}

/// The numbers of one bin where the first place passes to another key.
fn at_first_place_border(draw: Draw) -> Option<[Chroma; 9]> {
    let bin = (draw.whole % 12) as usize;
    let chroma = uniform(draw);
    let first = places(&chroma)?.keys.0;
    let still_first = |near: &Chroma| places(near).is_some_and(|now| now.keys.0 == first);
    border_in_bin(&chroma, bin, 1.0, still_first).map(|border| around(&chroma, bin, border))
}

/// Best and second score are the same bits: of symmetric chromas and of any others in turn.
fn ties(seed: u64) -> impl Iterator<Item = Chroma> {
    let symmetric = draws(seed, 40).map(symmetric).filter(is_tie);
    let others = draws(seed, 41).filter_map(at_first_place_border).flatten().filter(is_tie);
    symmetric.zip(others).flat_map(|(one, other)| [one, other])
}

fn tonic_borders(seed: u64, stream: u64, wanted: fn(&Places) -> bool) -> impl Iterator<Item = Chroma> {
    draws(seed, stream).filter_map(move |draw| at_tonic_border(uniform(draw), wanted)).flatten()
}

/// All kinds of chromas.
pub fn every_kind(seed: u64) -> impl Iterator<Item = Kind> {
    let kind = |name, chromas| Kind { name, chromas };
    let relative_tonics = tonic_borders(seed, 42, relative_and_close);
    let other_tonics = tonic_borders(seed, 43, not_relative_but_close);
    let margins = draws(seed, 44).filter_map(at_margin_border).flatten();
    let exact_margins = draws(seed, 45).filter_map(at_exact_margin).flatten();
    plain_kinds(seed).chain([
        kind("exact ties", Box::new(ties(seed))),
        kind("relative keys, tonics around 1.2", Box::new(relative_tonics)),
        kind("other keys, tonics around 1.2", Box::new(other_tonics)),
        kind("relative keys, margin around 0.05", Box::new(margins)),
        kind("relative keys, margin 0.05 to the bit", Box::new(exact_margins)),
    ])
}
