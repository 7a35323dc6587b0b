//! What a card may say, in numbers that its fields hold: such as keeps the rules, and such as breaks one of them.
use crate::analyses::{Kind, writable};
use crate::card_model::{KEY_BITS, LAYOUTS, Layout, MISSING, Meaning, PART_BITS, WHOLE};
use bench::inputs::dice::Dice;
use bench::inputs::random::patterns;

/// Numbers that the bits of keys and thousandths hold.
const KEYS: usize = 1 << KEY_BITS;
const PARTS: usize = 1 << PART_BITS;

/// A rule of the card, and what breaks it alone where there are several segments.
pub struct Breach {
    pub rule: &'static str,
    pub breaks: fn(&mut Meaning, Layout, &mut Dice),
}

/// A meaning whose card is of this kind.
pub fn good(seed: u64, stream: u64, kind: Kind) -> Meaning {
    let told = writable(kind, &mut patterns(seed, stream));
    let said = Meaning::of_analysis(&told).expect("an analysis that a card holds");
    assert_eq!(said.layout(), Some(kind.0), "{said:?}");
    said
}

/// From the lower number to below the upper.
pub fn between(dice: &mut Dice, least: u64, limit: usize) -> u64 {
    least + dice.below(limit - least as usize) as u64
}

fn no_key(dice: &mut Dice) -> u64 {
    between(dice, MISSING + 1, KEYS)
}

fn no_part(dice: &mut Dice) -> u64 {
    between(dice, WHOLE + 1, PARTS)
}

fn some_part(dice: &mut Dice) -> u64 {
    between(dice, 1, WHOLE as usize + 1)
}

fn any_place(said: &Meaning, dice: &mut Dice) -> usize {
    dice.below(said.segments.len())
}

/// A segment behind the first.
fn later_place(said: &Meaning, dice: &mut Dice) -> usize {
    1 + dice.below(said.segments.len() - 1)
}

/// All that goes with a key but for DSP key and segments.
fn lose_key(said: &mut Meaning) {
    let Meaning { dsp_key, segments, .. } = said.clone();
    *said = Meaning { dsp_key, segments, ..Meaning::empty() };
}

/// Each rule, broken alone.
pub const BREACHES: [Breach; 23] = [
    Breach { rule: "key above 24", breaks: |said, _, dice| said.key = no_key(dice) },
    Breach { rule: "DSP key above 24", breaks: |said, _, dice| said.dsp_key = no_key(dice) },
    Breach { rule: "alternate above 24", breaks: |said, _, dice| said.alternate = no_key(dice) },
    Breach {
        rule: "coverage above 1,000",
        breaks: |said, _, dice| {
            said.alternate = (said.key + 1) % MISSING;
            said.coverage = no_part(dice);
        },
    },
    Breach { rule: "confidence above 1,000", breaks: |said, _, dice| said.confidence = no_part(dice) },
    Breach {
        rule: "a segment's confidence above 1,000",
        breaks: |said, _, dice| {
            let at = any_place(said, dice);
            said.segments[at].confidence = no_part(dice);
        },
    },
    Breach {
        rule: "a segment's key missing",
        breaks: |said, _, dice| {
            let at = any_place(said, dice);
            said.segments[at].key = MISSING;
        },
    },
    Breach {
        rule: "a segment's key above 24",
        breaks: |said, _, dice| {
            let at = any_place(said, dice);
            said.segments[at].key = no_key(dice);
        },
    },
    Breach {
        rule: "an end at the one before",
        breaks: |said, _, dice| {
            let at = later_place(said, dice);
            said.segments[at].end = said.segments[at - 1].end;
        },
    },
    Breach {
        rule: "an end before the one before",
        breaks: |said, _, dice| {
            let at = later_place(said, dice);
            said.segments[at].end = dice.below(said.segments[at - 1].end as usize) as u64;
        },
    },
    Breach { rule: "the first of several ends at 0", breaks: |said, _, _| said.segments[0].end = 0 },
    Breach {
        rule: "the last end too late",
        breaks: |said, layout, dice| {
            let last = said.segments.last_mut().expect("several");
            last.end = between(dice, layout.last_end + 1, 1 << layout.end_bits);
        },
    },
    Breach { rule: "key missing", breaks: |said, _, _| lose_key(said) },
    Breach { rule: "DSP key missing", breaks: |said, _, _| said.dsp_key = MISSING },
    Breach { rule: "segments missing", breaks: |said, _, _| said.segments.clear() },
    Breach {
        rule: "segments without key and DSP key",
        breaks: |said, _, _| {
            lose_key(said);
            said.dsp_key = MISSING;
        },
    },
    Breach {
        rule: "a key alone",
        breaks: |said, _, dice| *said = Meaning { key: dice.key().into(), ..Meaning::empty() },
    },
    Breach {
        rule: "a DSP key alone",
        breaks: |said, _, dice| *said = Meaning { dsp_key: dice.key().into(), ..Meaning::empty() },
    },
    Breach {
        rule: "an alternate alone",
        breaks: |said, _, dice| *said = Meaning { alternate: dice.key().into(), ..Meaning::empty() },
    },
    Breach {
        rule: "a confidence alone",
        breaks: |said, _, dice| *said = Meaning { confidence: some_part(dice), ..Meaning::empty() },
    },
    Breach {
        rule: "a coverage alone",
        breaks: |said, _, dice| *said = Meaning { coverage: some_part(dice), ..Meaning::empty() },
    },
    Breach {
        rule: "a coverage without an alternate",
        breaks: |said, _, dice| {
            said.alternate = MISSING;
            said.coverage = some_part(dice);
        },
    },
    Breach { rule: "the alternate is the key", breaks: |said, _, _| said.alternate = said.key },
];

/// A meaning of 2 to 12 segments that this layout would hold, needed or not, but for the rule that is broken; and what
/// else is to be chosen.
pub fn broken(seed: u64, stream: u64, layout: Layout, breach: &Breach) -> (Meaning, Dice) {
    let mut dice = Dice::new(seed, stream);
    let needed = dice.one_of(&LAYOUTS[..layout.number as usize]);
    let mut said = good(seed, stream, (needed, 2 + dice.below(11)));
    (breach.breaks)(&mut said, layout, &mut dice);
    assert!(!said.fits(layout), "no rule is broken: {said:?}");
    (said, dice)
}
