//! Calls on a chroma, and what they leave.
use crate::groups::{Compared, compared_exactly};
use ulyptesh::calls::{self, KeyResult, ScoresResult};

/// So many places are lent at most.
pub const MOST_PLACES: usize = 27;

/// Lent places with four that are not lent behind them.
pub type Places = [f32; MOST_PLACES + 4];

compared_exactly!(ScoresResult);

impl Compared for KeyResult {
    fn same(&self, other: &Self) -> bool {
        let numbers = |answer: &Self| [answer.best, answer.second, answer.confidence];
        let wholes = |answer: &Self| [answer.refusal, answer.key, answer.shapeless];
        wholes(self) == wholes(other) && numbers(self).same(&numbers(other))
    }

    fn shown(&self) -> String {
        let Self { refusal, key, best, second, confidence, shapeless } = self;
        let numbers = [best, second, confidence].map(|number| number.shown()).join(", ");
        format!("refusal {refusal}, key {key}, best, second and confidence {numbers}, shapeless {shapeless}")
    }
}

/// Numbers that no score is, each place another.
pub fn untouched() -> Places {
    std::array::from_fn(|place| 1000.0 + place as f32)
}

/// What the scores call says, and what it leaves in the places.
pub fn our_scores(chroma: &[f32], lent: usize) -> (ScoresResult, Places) {
    let mut places = untouched();
    let answer = calls::scores(chroma, &mut places[..lent]);
    (answer, places)
}
