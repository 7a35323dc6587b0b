//! Random bytes read as cards, most of them mended so far that their length and layout are a card's.
use crate::card_calls::Reading;
use crate::card_model::{LAYOUTS, Layout, MISSING, Meaning, Segment, WHOLE};
use crate::groups::Groups;
use bench::inputs::dice::Dice;

/// Streams of the seed from here on, one for each.
const STREAM: u64 = 10_000_000;

const READINGS: usize = 1_000_000;

/// So many of them show that every answer is among them.
const LOOKED_AT: usize = 10_000;

/// One in so many things is left as it is, or spoilt.
const ODD: usize = 16;

/// Any bytes, not many more than a card of a few segments has.
fn any_bytes(dice: &mut Dice) -> Vec<u8> {
    (0..dice.below(48)).map(|_| dice.below(256) as u8).collect()
}

fn any_number(dice: &mut Dice, bits: u32) -> u64 {
    dice.below(1 << bits) as u64
}

/// Any numbers that the layout's fields hold.
fn any_meaning(layout: Layout, dice: &mut Dice) -> Meaning {
    let [key, dsp_key, alternate, coverage, confidence, _] =
        layout.header().map(|bits| any_number(dice, bits));
    let count = dice.below(9);
    let segment = |_| {
        let [end, key, confidence] = layout.segment().map(|bits| any_number(dice, bits));
        Segment { end, key, confidence }
    };
    let segments = (0..count).map(segment).collect();
    Meaning { key, dsp_key, alternate, coverage, confidence, segments }
}

fn mend_keys(said: &mut Meaning, _: Layout) {
    let silent = said.segments.is_empty();
    for key in [&mut said.key, &mut said.dsp_key] {
        *key = if silent { MISSING } else { *key % MISSING };
    }
    said.alternate = said.alternate.min(MISSING);
    if silent || said.alternate == said.key {
        said.alternate = MISSING;
    }
}

fn mend_parts(said: &mut Meaning, _: Layout) {
    said.coverage = if said.alternate == MISSING { 0 } else { said.coverage.min(WHOLE) };
    said.confidence = if said.key == MISSING { 0 } else { said.confidence.min(WHOLE) };
    for segment in &mut said.segments {
        segment.confidence = segment.confidence.min(WHOLE);
        segment.key %= MISSING;
    }
}

fn mend_ends(said: &mut Meaning, layout: Layout) {
    let mut ends: Vec<u64> = said.segments.iter().map(|segment| 1 + segment.end % layout.last_end).collect();
    ends.sort_unstable();
    said.segments.iter_mut().zip(ends).for_each(|(segment, end)| segment.end = end);
}

/// A card by its bytes, and how many segments it has; now and then something is not mended, or spoilt again.
fn mended(layout: Layout, dice: &mut Dice) -> (Vec<u8>, usize) {
    let mut said = any_meaning(layout, dice);
    for mend in [mend_keys, mend_parts, mend_ends] {
        if !dice.one_in(ODD) {
            mend(&mut said, layout);
        }
    }
    let mut bytes = said.joined(layout);
    match dice.below(4 * ODD) {
        0 => drop(bytes.pop()),
        1 => bytes.push(0),
        2 => bytes[0] ^= 0x10 << dice.below(4),
        3..ODD => *bytes.last_mut().expect("a card is not empty") |= 1 << dice.below(3),
        _ => {}
    }
    (bytes, said.segments.len())
}

/// One in eight is any bytes, one in eight any numbers in the fields of either layout.
fn reading(seed: u64, nth: usize) -> Reading {
    let mut dice = Dice::new(seed, STREAM + nth as u64);
    let layout = dice.one_of(&LAYOUTS);
    let (bytes, count) = match nth % 8 {
        0 => (any_bytes(&mut dice), 0),
        1 => {
            let said = any_meaning(layout, &mut dice);
            (said.joined(layout), said.segments.len())
        }
        _ => mended(layout, &mut dice),
    };
    let mut rows = [0; 4].map(|_| count + dice.below(3));
    if dice.one_in(ODD) {
        rows[dice.below(4)] = dice.below(count + 1);
    }
    Reading { bytes, rows }
}

/// Whether each answer comes often, and whole cards most often.
fn is_mixed(seed: u64) -> bool {
    let answers: Vec<Option<u32>> = (0..LOOKED_AT).map(|nth| reading(seed, nth).refusal()).collect();
    let part = |answer: Option<u32>| answers.iter().filter(|&&other| other == answer).count() as f64;
    let refusals = [20, 21, 22, 23, 24].map(|refusal| part(Some(refusal)) / LOOKED_AT as f64);
    refusals.iter().all(|&part| part > 0.01) && part(None) / LOOKED_AT as f64 > 0.3
}

pub fn compare_random(groups: &mut Groups) {
    let seed = groups.seed;
    assert!(is_mixed(seed), "some answers hardly come");
    let name = "cards read, random bytes";
    groups.shared_group(name, READINGS, |nth| reading(seed, nth), Reading::ours, Reading::theirs);
}
