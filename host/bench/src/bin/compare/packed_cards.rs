//! Key cards written from packed numbers, beside a packer written from the request; and what is written, read back.
use crate::analyses::{Kind, kinds};
use crate::card_breaches::{BREACHES, between, broken, good};
use crate::card_calls::{Read, Reading, Rows, Writing};
use crate::card_limits::{self, WRITINGS};
use crate::card_model::{KEY_BITS, LAYOUT_1, LAYOUT_2, LAYOUTS, PART_BITS};
use crate::cards;
use crate::groups::Groups;
use bench::inputs::dice::Dice;

/// Streams of the seed from here on: good numbers, and for each breach a thousand.
const STREAM: u64 = 300_000;
const BROKEN_STREAM: u64 = 350_000;
const SPOILT_STREAM: u64 = 400_000;

/// So many writings of few segments, and so many for each breach.
const FEW: usize = 20_000;
const BROKEN: usize = 1_000;

/// Keys and thousandths about their limits and the borders of their fields, up to the largest number.
const KEYS: [u32; 11] = [0, 1, 22, 23, 24, 25, 31, 32, 55, 256, u32::MAX];
const PARTS: [u32; 8] = [0, 1, 999, 1_000, 1_001, 1_023, 1_024, u32::MAX];

/// A segment's numbers, likewise.
#[rustfmt::skip]
const ENDS: [u32; 19] = [
    0, 1, 2, 14_399_999, 14_400_000, 14_400_001, 16_777_215, 16_777_216, 16_777_217, 31_177_216, 86_399_999, 86_400_000,
    86_400_001, 134_217_727, 134_217_728, 134_217_729, 220_617_728, u32::MAX - 1, u32::MAX,
];
const SEGMENT_KEYS: [u8; 8] = [0, 23, 24, 25, 31, 32, 55, 255];
const CONFIDENCES: [u16; 9] = [0, 999, 1_000, 1_001, 1_023, 1_024, 2_024, 32_768, u16::MAX];

/// What a call leaves, and where it wrote a card what is read of it.
type Left = (cards::Left, Option<Read>);

fn ours(writing: &Writing) -> Left {
    let left = writing.ours();
    let card = left.card().to_vec();
    let read = || Reading::new(card, writing.rows.ends.len(), [0; 4]).ours();
    let written = left.answer.refusal == 0;
    (left, written.then(read))
}

fn theirs(writing: &Writing) -> Left {
    let (left, said) = (writing.theirs(), writing.said());
    let written = left.answer.refusal == 0;
    let read = said.filter(|_| written).map(|said| Read::wanted(&said, left.card().to_vec()));
    (left, read)
}

fn compare_writings(groups: &mut Groups, name: &str, count: usize, nth: impl Fn(usize) -> Writing + Sync) {
    groups.shared_group(&format!("packed cards, {name}"), count, nth, ours, theirs);
}

/// Just enough bytes for a card of this kind, one too few, more, or any fewer.
fn lent_for(dice: &mut Dice, (layout, segments): Kind) -> usize {
    let needed = layout.length_of(segments);
    let fewer = dice.below(needed);
    dice.one_of(&[needed, needed - 1, needed + 5, fewer])
}

/// Good numbers.
fn writable(seed: u64, stream: u64, kind: Kind) -> Writing {
    let lent = lent_for(&mut Dice::new(seed, stream), kind);
    let writing = Writing::of(&good(seed, stream, kind), lent);
    assert!(writing.card().is_some(), "not writable: {writing:?}");
    writing
}

/// What is done to good numbers of several segments, after which they are refused.
struct Spoiling {
    what: &'static str,
    spoils: fn(&mut Writing, &mut Dice),
}

/// A number that is the same in so many bits.
fn beyond(dice: &mut Dice, number: u32, bits: u32) -> u32 {
    number + ((between(dice, 1, 1 << (u32::BITS - bits)) as u32) << bits)
}

fn place(writing: &Writing, dice: &mut Dice) -> usize {
    dice.below(writing.rows.ends.len())
}

/// The start behind an end is moved with it.
fn set_end(rows: &mut Rows, at: usize, end: u32) {
    rows.ends[at] = end;
    if let Some(start) = rows.starts.get_mut(at + 1) {
        *start = end;
    }
}

/// More segments than a card has, all else in order.
fn lengthen(writing: &mut Writing, dice: &mut Dice) {
    let count = (LAYOUT_2.most_segments + 1 + dice.below(3)) as u32;
    let (starts, ends) = ((0..count).collect(), (1..=count).collect());
    let (keys, confidences) = (vec![3; count as usize], vec![500; count as usize]);
    writing.rows = Rows { starts, ends, keys, confidences };
    writing.lent = LAYOUT_2.length_of(count as usize);
}

/// Numbers too large for their field, whose front bits alone are wrong; starts; lengths.
const SPOILINGS: [Spoiling; 15] = [
    Spoiling {
        what: "key beyond its field",
        spoils: |writing, dice| writing.key = beyond(dice, writing.key, KEY_BITS),
    },
    Spoiling {
        what: "DSP key beyond its field",
        spoils: |writing, dice| writing.dsp_key = beyond(dice, writing.dsp_key, KEY_BITS),
    },
    Spoiling {
        what: "alternate beyond its field",
        spoils: |writing, dice| writing.alternate = beyond(dice, writing.alternate, KEY_BITS),
    },
    Spoiling {
        what: "coverage beyond its field",
        spoils: |writing, dice| writing.coverage = beyond(dice, writing.coverage, PART_BITS),
    },
    Spoiling {
        what: "confidence beyond its field",
        spoils: |writing, dice| writing.confidence = beyond(dice, writing.confidence, PART_BITS),
    },
    Spoiling {
        what: "keys beyond a byte or two",
        spoils: |writing, dice| {
            let bits = dice.one_of(&[8, 16]);
            writing.key = beyond(dice, writing.key, bits);
            writing.dsp_key = beyond(dice, writing.dsp_key, bits);
            writing.alternate = beyond(dice, writing.alternate, bits);
        },
    },
    Spoiling {
        what: "an end beyond its field in either layout",
        spoils: |writing, dice| {
            let at = place(writing, dice);
            let end = beyond(dice, writing.rows.ends[at], LAYOUT_2.end_bits);
            set_end(&mut writing.rows, at, end);
        },
    },
    Spoiling {
        what: "a segment's key beyond its field",
        spoils: |writing, dice| {
            let at = place(writing, dice);
            writing.rows.keys[at] |= 1 << (KEY_BITS as usize + dice.below(3));
        },
    },
    Spoiling {
        what: "a segment's confidence beyond its field",
        spoils: |writing, dice| {
            let at = place(writing, dice);
            writing.rows.confidences[at] |= 1 << (PART_BITS as usize + dice.below(6));
        },
    },
    Spoiling {
        what: "the first start not 0",
        spoils: |writing, dice| writing.rows.starts[0] = dice.one_of(&[1, 2, u32::MAX]),
    },
    Spoiling {
        what: "a start after the end before",
        spoils: |writing, dice| {
            let at = place(writing, dice);
            writing.rows.starts[at] += 1;
        },
    },
    Spoiling {
        what: "a start before the end before",
        spoils: |writing, dice| {
            let at = 1 + dice.below(writing.rows.ends.len() - 1);
            writing.rows.starts[at] -= 1;
        },
    },
    Spoiling {
        what: "slices of unequal length, one shorter",
        spoils: |writing, dice| {
            let (left, rows) = (place(writing, dice), &mut writing.rows);
            match dice.below(4) {
                0 => rows.starts.truncate(left),
                1 => rows.ends.truncate(left),
                2 => rows.keys.truncate(left),
                _ => rows.confidences.truncate(left),
            }
        },
    },
    Spoiling {
        what: "slices of unequal length, one longer",
        spoils: |writing, dice| {
            let rows = &mut writing.rows;
            match dice.below(4) {
                0 => rows.starts.extend(rows.ends.last().copied()),
                1 => rows.ends.push(LAYOUT_2.last_end as u32),
                2 => rows.keys.push(0),
                _ => rows.confidences.push(0),
            }
        },
    },
    Spoiling { what: "4,096 segments and more", spoils: lengthen },
];

/// Good numbers of 2 to 12 segments for a card of either layout, spoilt.
fn spoilt(seed: u64, stream: u64, spoiling: &Spoiling) -> Writing {
    let mut dice = Dice::new(seed, stream);
    let kind = (dice.one_of(&LAYOUTS), 2 + dice.below(11));
    let mut writing = writable(seed, stream, kind);
    (spoiling.spoils)(&mut writing, &mut dice);
    assert!(writing.card().is_none(), "no rule is broken: {writing:?}");
    writing
}

fn compare_refused(groups: &mut Groups) {
    let seed = groups.seed;
    for (breach, first) in BREACHES.iter().zip((BROKEN_STREAM..).step_by(BROKEN)) {
        compare_writings(groups, breach.rule, BROKEN, |nth| {
            let (said, mut dice) = broken(seed, first + nth as u64, LAYOUT_2, breach);
            Writing::of(&said, lent_for(&mut dice, (LAYOUT_2, said.segments.len())))
        });
    }
    for (spoiling, first) in SPOILINGS.iter().zip((SPOILT_STREAM..).step_by(BROKEN)) {
        compare_writings(groups, spoiling.what, BROKEN, |nth| spoilt(seed, first + nth as u64, spoiling));
    }
}

/// Takes a choice of a list from a number, and what is left of the number for the next.
pub fn chosen<A: Copy>(nth: &mut usize, choices: &[A]) -> A {
    let choice = choices[*nth % choices.len()];
    *nth /= choices.len();
    choice
}

/// So many segments at whole milliseconds.
fn rows(count: u32) -> Rows {
    let (keys, confidences) = (vec![5; count as usize], vec![250; count as usize]);
    Rows { starts: (0..count).collect(), ends: (1..=count).collect(), keys, confidences }
}

/// The header's numbers, each choice of all lists, without a segment, with one, and with one that layout 2 alone holds.
const HEADERS: usize = KEYS.len().pow(3) * PARTS.len().pow(2) * 3;

fn header_at_limits(mut nth: usize) -> Writing {
    let [key, dsp_key, alternate] = [0; 3].map(|_| chosen(&mut nth, &KEYS));
    let [coverage, confidence] = [0; 2].map(|_| chosen(&mut nth, &PARTS));
    let mut rows = rows(nth.min(1) as u32);
    if nth == 2 {
        set_end(&mut rows, 0, LAYOUT_1.last_end as u32 + 1);
    }
    let lent = LAYOUT_2.length_of(rows.ends.len());
    Writing { key, dsp_key, alternate, coverage, confidence, rows, lent }
}

/// The numbers of a lone segment, and of the second of three.
const SEGMENTS: usize = ENDS.len() * SEGMENT_KEYS.len() * CONFIDENCES.len() * 2;

fn segment_at_limits(mut nth: usize) -> Writing {
    let end = chosen(&mut nth, &ENDS);
    let (key, confidence) = (chosen(&mut nth, &SEGMENT_KEYS), chosen(&mut nth, &CONFIDENCES));
    let (count, at) = if nth == 0 { (1, 0) } else { (3, 1) };
    let mut rows = rows(count);
    set_end(&mut rows, at, end);
    if let Some(last) = rows.ends.get_mut(at + 1) {
        *last = end.saturating_add(1);
    }
    (rows.keys[at], rows.confidences[at]) = (key, confidence);
    let lent = LAYOUT_2.length_of(count as usize);
    Writing { key: 0, dsp_key: 0, alternate: 24, coverage: 0, confidence: 0, rows, lent }
}

pub fn compare(groups: &mut Groups) {
    let seed = groups.seed;
    let (every, few) = (kinds(LAYOUT_2.most_segments), kinds(12));
    let of = |kinds: &[Kind], nth: usize| writable(seed, STREAM + nth as u64, kinds[nth % kinds.len()]);
    compare_writings(groups, "0 to 4,095 segments", 2 * every.len(), |nth| of(&every, nth));
    compare_writings(groups, "0 to 12 segments", FEW, |nth| of(&few, nth));
    let limits = card_limits::meanings();
    let at_limits = |nth| card_limits::writing(&limits, nth);
    compare_writings(groups, "counts and last ends at their limits", WRITINGS * limits.len(), at_limits);
    compare_writings(groups, "header numbers at their limits", HEADERS, header_at_limits);
    compare_writings(groups, "a segment's numbers at their limits", SEGMENTS, segment_at_limits);
    compare_refused(groups);
}
