//! Cards that reading refuses, in a place of a lent set: beside the summary of the others, and beside one that counts
//! them as they are, as if nobody had judged them.
use crate::analyses::{Kind, kinds};
use crate::card_breaches::{BREACHES, broken, good};
use crate::card_model::{LAYOUT_1, LAYOUT_2, LAYOUTS, MISSING, Meaning, NEEDLESS_LAYOUT, RULE_BROKEN};
use crate::groups::Groups;
use crate::set_calls::Asked;
use crate::set_model::{CALLS, NUMBERS, PLACE, PLACES, Set};
use crate::set_places::{few_cards, padded};
use std::ops::Range;

/// Streams of the seed, one for each card of a kind.
const STREAMS: Range<u64> = 470_000..470_020;

/// Most segments of the cards.
const FEW: usize = 12;

/// Places that the cards come to: the first, a free one, the last.
const COME_TO: [usize; 3] = [0, 2, PLACES - 1];

/// What a card says, and its bytes.
type Unreadable = (Meaning, Vec<u8>);

/// Each rule broken in each layout.
fn against_rules(seed: u64) -> impl Iterator<Item = Unreadable> {
    let breaches = LAYOUTS.into_iter().flat_map(|layout| BREACHES.iter().map(move |breach| (layout, breach)));
    breaches.flat_map(move |(layout, breach)| {
        STREAMS.map(move |stream| {
            let said = broken(seed, stream, layout, breach).0;
            let bytes = said.joined(layout);
            assert_eq!(Meaning::read(&bytes), Err(RULE_BROKEN));
            (said, bytes)
        })
    })
}

/// Layout 2 without need.
fn needless(seed: u64) -> impl Iterator<Item = Unreadable> {
    let counts = STREAMS.flat_map(|stream| (0..=FEW).map(move |count| (stream, count)));
    counts.map(move |(stream, count)| {
        let said = good(seed, stream, (LAYOUT_1, count));
        let bytes = said.joined(LAYOUT_2);
        assert_eq!(Meaning::read(&bytes), Err(NEEDLESS_LAYOUT));
        (said, bytes)
    })
}

/// A bit set behind the last segment.
fn filled(seed: u64) -> impl Iterator<Item = Unreadable> {
    let has_filler = |(layout, count): &Kind| !layout.bits_of(*count).is_multiple_of(8);
    kinds(FEW).into_iter().filter(has_filler).map(move |kind| {
        let said = good(seed, STREAMS.start, kind);
        let mut bytes = said.joined(kind.0);
        *bytes.last_mut().expect("a card is not empty") |= 1;
        assert_eq!(Meaning::read(&bytes), Err(RULE_BROKEN));
        (said, bytes)
    })
}

/// A summary with a card that nobody has judged: lengths may wrap, and what has no key's number is left out.
fn counting(mut summary: Vec<u64>, said: &Meaning) -> Vec<u64> {
    let segments = said.starts().zip(&said.segments).filter(|(_, segment)| segment.key < MISSING);
    for (start, segment) in segments {
        let total = &mut summary[segment.key as usize];
        *total = total.wrapping_add(segment.end).wrapping_sub(start);
    }
    summary[NUMBERS - 2] += 1;
    summary[NUMBERS - 1] += u64::from(said.key == MISSING);
    summary
}

/// One of the cards in a place, by its number: each place, either call, either summary.
fn asked(list: &Set, cards: &[Unreadable], nth: usize) -> Asked {
    let ((said, bytes), place) = (&cards[nth / 4], COME_TO[nth / 4 % COME_TO.len()]);
    let others = list.without(place);
    let mut asked = Asked::new(CALLS[nth % 2], &others, bytes);
    asked.set[place * PLACE..][..PLACE].copy_from_slice(&padded(bytes));
    if nth / 2 % 2 == 1 {
        asked.summary = counting(asked.summary, said);
    }
    asked
}

pub fn compare_unreadable(groups: &mut Groups) {
    let (seed, list) = (groups.seed, few_cards(groups.seed));
    let cards: Vec<Unreadable> = against_rules(seed).chain(needless(seed)).chain(filled(seed)).collect();
    let name = "sets with a spoilt place, a card that reading refuses";
    let nth = |nth| asked(&list, &cards, nth);
    groups.shared_group(name, 4 * cards.len(), nth, Asked::ours, Asked::theirs);
}
