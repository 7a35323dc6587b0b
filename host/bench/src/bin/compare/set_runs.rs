//! Calls one after the other on a set that begins empty: after each, the answer and every byte and number that is lent
//! are held to a list of cards.
use crate::set_calls::{Lent, shown_bytes};
use crate::set_model::{Call, NUMBERS, SET, Set, refused};
use ulyptesh::calls::SetChange;

/// Something that befalls lent memory before a call.
#[derive(Debug, Clone, Copy)]
pub enum Spoiling {
    /// Bits of a byte of the set turn round.
    Byte { at: usize, bits: u8 },
    /// A number of the summary grows, and wraps.
    Number { at: usize, by: u64 },
    /// Two numbers of the summary change places.
    Exchange { one: usize, other: usize },
}

/// A call with its card, and what befell the memory before it.
#[derive(Debug, Clone, Copy)]
pub struct Step<'a> {
    pub call: Call,
    pub card: &'a [u8],
    pub spoiling: Option<Spoiling>,
}

impl Spoiling {
    fn befall(self, lent: &mut Lent) {
        match self {
            Self::Byte { at, bits } => lent.set_mut()[at] ^= bits,
            Self::Number { at, by } => {
                let number = &mut lent.summary_mut()[at];
                *number = number.wrapping_add(by);
            }
            Self::Exchange { one, other } => lent.summary_mut().swap(one, other),
        }
    }

    fn undo(self, lent: &mut Lent) {
        match self {
            Self::Number { at, by } => Self::Number { at, by: by.wrapping_neg() }.befall(lent),
            itself => itself.befall(lent),
        }
    }
}

/// The memory that our calls change, and the list that says what it has to hold.
struct Run {
    lent: Lent,
    list: Set,
    before: usize,
}

impl Run {
    fn new(before: usize) -> Self {
        Self { lent: Lent::new(&[0; SET], &[0; NUMBERS], before), list: Set::empty(), before }
    }

    /// What differs after a step, in words.
    fn difference(&mut self, step: &Step<'_>) -> Option<String> {
        let Some(spoiling) = step.spoiling else {
            return self.after_call(step);
        };
        spoiling.befall(&mut self.lent);
        match Set::lent(self.lent.set(), self.lent.summary()) {
            Ok(list) => {
                self.list = list;
                self.after_call(step)
            }
            Err(refusal) => {
                let differs = self.after_refusal(step, refusal);
                spoiling.undo(&mut self.lent);
                differs
            }
        }
    }

    fn after_call(&mut self, step: &Step<'_>) -> Option<String> {
        let found = self.lent.call(step.call, step.card, self.before);
        let wanted = self.list.change(step.call, step.card);
        let place = self.list.other_place(self.lent.set()).map(|place| format!("place {place} differs"));
        let summary = (self.lent.summary() != self.list.summary())
            .then(|| format!("summary {:?}, wanted {:?}", self.lent.summary(), self.list.summary()));
        let fences = (!self.lent.fences_stand()).then(|| "something around them changed".into());
        other_answer(found, wanted).or(place).or(summary).or(fences)
    }

    /// Nothing may change.
    fn after_refusal(&mut self, step: &Step<'_>, refusal: u32) -> Option<String> {
        let was = self.lent.clone();
        let found = self.lent.call(step.call, step.card, self.before);
        let changed = (self.lent != was).then(|| "a refused call changed something".into());
        other_answer(found, refused(refusal)).or(changed)
    }
}

fn other_answer(found: Option<SetChange>, wanted: SetChange) -> Option<String> {
    (found != Some(wanted)).then(|| format!("answer {found:?}, wanted {wanted:?}"))
}

/// The first step after which something differs; the set begins so many bytes behind an address of any number.
pub fn first_difference<'a>(before: usize, steps: impl Iterator<Item = Step<'a>>) -> Option<String> {
    let mut run = Run::new(before);
    let told = |nth: usize, step: &Step<'_>, what: String| {
        let Step { call, card, spoiling } = step;
        format!("call {nth}, {call:?} {}, spoilt {spoiling:?}: {what}", shown_bytes(card))
    };
    steps.zip(1..).find_map(|(step, nth)| run.difference(&step).map(|what| told(nth, &step, what)))
}
