//! Key cards written from analyses, beside a packer written from the request.
use crate::analyses::{self, BREACHES, Kind, Told, kinds};
use crate::card_limits::{self, ANALYSES};
use crate::card_model::{LAYOUT_1, LAYOUT_2, Layout, Meaning};
use crate::groups::{Groups, compared_as_shown, compared_exactly};
use bench::inputs::random::patterns;
use ulyptesh::calls::{TOO_FEW_BYTES, UNWRITABLE, Written, write_card};

/// Streams of the seed from here on, one for each analysis.
const STREAM: u64 = 1_000_000;
const FEW_STREAM: u64 = 1_100_000;

/// Every number of segments so many times in each layout.
const TIMES: usize = 4;

/// Most segments where they are few.
const FEW: usize = 12;

/// So many analyses of every number of segments, of few segments, and for each broken rule.
pub const OF_EVERY_COUNT: usize = TIMES * (LAYOUT_1.most_segments + 1 + LAYOUT_2.most_segments);
pub const OF_FEW_SEGMENTS: usize = 100_000;
const BROKEN: usize = 2_000;

/// What a byte holds that no card was written to.
const UNTOUCHED: u8 = 0xa5;

/// Bytes behind those that are lent.
const BEYOND: usize = 3;

/// A call's answer and what it left in the bytes.
#[derive(Debug, PartialEq)]
pub struct Left {
    pub answer: Written,
    pub bytes: Vec<u8>,
}

compared_exactly!(Left);

compared_as_shown!(Told);

impl Left {
    /// What a call leaves that writes into so many bytes.
    pub fn by(lent: usize, write: impl FnOnce(&mut [u8]) -> Written) -> Self {
        let mut bytes = vec![UNTOUCHED; lent + BEYOND];
        let answer = write(&mut bytes[..lent]);
        Self { answer, bytes }
    }

    /// What has to be left: the card, or its refusal where there is none or too little room.
    pub fn wanted(lent: usize, card: Option<Vec<u8>>) -> Self {
        let refused = |refusal| Written { refusal, length: 0 };
        Self::by(lent, |bytes| match card {
            None => refused(UNWRITABLE),
            Some(card) if lent < card.len() => refused(TOO_FEW_BYTES),
            Some(card) => {
                bytes[..card.len()].copy_from_slice(&card);
                Written { refusal: 0, length: card.len() }
            }
        })
    }

    /// The bytes that were written.
    pub fn card(&self) -> &[u8] {
        &self.bytes[..self.answer.length]
    }
}

/// The card of an analysis, or none where a rule is broken.
pub fn packed(told: &Told) -> Option<Vec<u8>> {
    Meaning::of_analysis(told)?.card()
}

/// What the call leaves that writes the card of an analysis into so many bytes.
pub fn written(told: &Told, lent: usize) -> Left {
    Left::by(lent, |bytes| write_card(&told.as_lent(), bytes))
}

fn ours(told: &Told) -> Left {
    written(told, told.lent)
}

fn theirs(told: &Told) -> Left {
    Left::wanted(told.lent, packed(told))
}

fn layout(told: &Told) -> Option<Layout> {
    Meaning::of_analysis(told)?.layout()
}

/// Analyses by their number, whose cards are of these kinds in turn.
fn in_turn(seed: u64, stream: u64, kinds: Vec<Kind>) -> impl Fn(usize) -> Told + Sync {
    move |nth| {
        let kind = kinds[nth % kinds.len()];
        let told = analyses::writable(kind, &mut patterns(seed, stream + nth as u64));
        assert_eq!(layout(&told), Some(kind.0), "{told:?}");
        told
    }
}

/// Analyses of 0 to 4,095 segments.
pub fn of_every_count(seed: u64) -> impl Fn(usize) -> Told + Sync {
    in_turn(seed, STREAM, kinds(LAYOUT_2.most_segments))
}

/// Analyses of 0 to 12 segments.
pub fn of_few_segments(seed: u64) -> impl Fn(usize) -> Told + Sync {
    in_turn(seed, FEW_STREAM, kinds(FEW))
}

fn expect_none(told: &Told) {
    assert_eq!(layout(told), None, "no rule is broken: {told:?}");
}

pub fn compare(groups: &mut Groups) {
    let seed = groups.seed;
    let (every, few) = (of_every_count(seed), of_few_segments(seed));
    groups.shared_group("cards, 0 to 4,095 segments", OF_EVERY_COUNT, every, ours, theirs);
    groups.shared_group("cards, 0 to 12 segments", OF_FEW_SEGMENTS, few, ours, theirs);
    let limits = card_limits::meanings();
    let at_limits = |nth| card_limits::analysis(&limits, nth);
    let name = "cards, counts and last ends at their limits";
    groups.shared_group(name, ANALYSES * limits.len(), at_limits, ours, theirs);
    for (breach, stream) in BREACHES.iter().zip(100..) {
        let told = analyses::broken(seed, stream, BROKEN, breach).inspect(expect_none);
        let name = format!("cards, {}", breach.rule);
        groups.group(&name, told, |told| ours(&told), |told| theirs(&told));
    }
}
