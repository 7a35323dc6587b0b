//! A card's round: written from an analysis, read, and written again from what was read.
use crate::analyses::Told;
use crate::card_calls::{Read, Reading};
use crate::card_model::{LAYOUT_2, Meaning};
use crate::cards::{self, Left, packed};

/// What writing leaves, and where there is a card what reading it and writing it again leave.
pub type Round = (Left, Option<(Read, Left)>);

/// The ends that were read, in milliseconds; none where there is no card.
pub fn ends(round: &Round) -> &[u32] {
    round.1.as_ref().map_or(&[], |(read, _)| read.ends())
}

/// Bytes that hold the card in either layout.
fn room(told: &Told) -> usize {
    LAYOUT_2.length_of(told.ends.len())
}

/// By the library's calls.
pub fn ours(told: &Told) -> Round {
    let written = cards::written(told, room(told));
    let again = (written.answer.refusal == 0).then(|| {
        let card = written.card();
        let read = Reading::new(card.to_vec(), told.ends.len(), [0; 4]).ours();
        let again = read.to_write(card.len()).ours();
        (read, again)
    });
    (written, again)
}

/// The analysis' own numbers, packed by the request's words.
pub fn theirs(told: &Told) -> Round {
    let card = packed(told);
    let again = card.clone().zip(Meaning::of_analysis(told)).map(|(card, said)| {
        let written = Left::wanted(card.len(), Some(card.clone()));
        (Read::wanted(&said, card), written)
    });
    (Left::wanted(room(told), card), again)
}
