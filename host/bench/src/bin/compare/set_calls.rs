//! Calls on a set: what they are lent, between entries that have to stay, and what they leave in all of it.
use crate::groups::Compared;
use crate::set_model::{Call, PLACE, Set, refused};
use std::ops::Range;
use ulyptesh::calls::{SetChange, add_card, remove_card};

/// Entries behind what is lent, and at least so many before it.
const FENCE: usize = 16;

/// What the entries around lent bytes and numbers hold.
const MARK: u8 = 0xa5;
const MARK_NUMBER: u64 = 0xa5a5_a5a5_a5a5_a5a5;

/// So many bytes of a card are shown, and so many places of a set.
const SHOWN: usize = 48;
const SHOWN_PLACES: usize = 12;

/// A slice that is lent out of the midst of others.
#[derive(Debug, Clone, PartialEq)]
struct Fenced<A> {
    all: Vec<A>,
    lent: Range<usize>,
}

impl<A: Copy> Fenced<A> {
    fn new(lent: &[A], before: usize, mark: A) -> Self {
        let range = FENCE + before..FENCE + before + lent.len();
        let mut all = vec![mark; range.end + FENCE];
        all[range.clone()].copy_from_slice(lent);
        Self { all, lent: range }
    }

    fn lent(&self) -> &[A] {
        &self.all[self.lent.clone()]
    }

    fn lent_mut(&mut self) -> &mut [A] {
        &mut self.all[self.lent.clone()]
    }
}

impl<A: PartialEq> Fenced<A> {
    fn stands(&self, mark: &A) -> bool {
        let Range { start, end } = self.lent;
        self.all[..start].iter().chain(&self.all[end..]).all(|entry| entry == mark)
    }
}

/// A set and a summary in lent memory.
#[derive(Debug, Clone, PartialEq)]
pub struct Lent {
    set: Fenced<u8>,
    summary: Fenced<u64>,
}

impl Lent {
    /// The set begins so many bytes behind an address that any number may have.
    pub fn new(set: &[u8], summary: &[u64], before: usize) -> Self {
        Self { set: Fenced::new(set, before, MARK), summary: Fenced::new(summary, 0, MARK_NUMBER) }
    }

    pub fn set(&self) -> &[u8] {
        self.set.lent()
    }

    pub fn set_mut(&mut self) -> &mut [u8] {
        self.set.lent_mut()
    }

    pub fn summary(&self) -> &[u64] {
        self.summary.lent()
    }

    pub fn summary_mut(&mut self) -> &mut [u64] {
        self.summary.lent_mut()
    }

    /// Whether what stands around both is still there.
    pub fn fences_stand(&self) -> bool {
        self.set.stands(&MARK) && self.summary.stands(&MARK_NUMBER)
    }

    /// What the library answers; none where the card, or what stands around it, changed.
    pub fn call(&mut self, call: Call, card: &[u8], before: usize) -> Option<SetChange> {
        let given = Fenced::new(card, before, MARK);
        let by = match call {
            Call::Add => add_card,
            Call::Remove => remove_card,
        };
        let answer = by(self.set.lent_mut(), self.summary.lent_mut(), given.lent());
        (given.lent() == card && given.stands(&MARK)).then_some(answer)
    }

    /// What the request's words answer, and leave.
    fn judge(&mut self, call: Call, card: &[u8]) -> SetChange {
        match Set::lent(self.set(), self.summary()) {
            Err(refusal) => refused(refusal),
            Ok(mut list) => {
                let answer = list.change(call, card);
                self.set_mut().copy_from_slice(&list.bytes());
                self.summary_mut().copy_from_slice(&list.summary());
                answer
            }
        }
    }
}

/// A call with all that it is lent; set and card begin so many bytes behind addresses that any number may have.
#[derive(Debug, Clone)]
pub struct Asked {
    pub call: Call,
    pub set: Vec<u8>,
    pub summary: Vec<u64>,
    pub card: Vec<u8>,
    pub before: usize,
}

/// A call's answer, none where the card changed, and what it leaves.
#[derive(Debug, PartialEq)]
pub struct Left {
    answer: Option<SetChange>,
    lent: Lent,
}

impl Asked {
    pub fn new(call: Call, list: &Set, card: &[u8]) -> Self {
        Self { call, set: list.bytes(), summary: list.summary(), card: card.to_vec(), before: 0 }
    }

    fn lent(&self) -> Lent {
        Lent::new(&self.set, &self.summary, self.before)
    }

    pub fn ours(&self) -> Left {
        let mut lent = self.lent();
        let answer = lent.call(self.call, &self.card, self.before);
        Left { answer, lent }
    }

    pub fn theirs(&self) -> Left {
        let mut lent = self.lent();
        let answer = Some(lent.judge(self.call, &self.card));
        Left { answer, lent }
    }

    /// What the request's words answer.
    pub fn answer(&self) -> SetChange {
        self.lent().judge(self.call, &self.card)
    }
}

/// How many bytes, and the first of them.
pub fn shown_bytes(bytes: &[u8]) -> String {
    let front: String = bytes.iter().take(SHOWN).map(|byte| format!("{byte:02x}")).collect();
    format!("{} bytes, from {front}", bytes.len())
}

/// How many bytes, and the first places that are not free.
fn shown_set(bytes: &[u8]) -> String {
    let used = bytes.chunks(PLACE).enumerate().filter(|(_, place)| place.iter().any(|&byte| byte != 0));
    let used: Vec<usize> = used.map(|(place, _)| place).collect();
    let front = used.iter().take(SHOWN_PLACES).map(|&place| {
        let end = bytes.len().min((place + 1) * PLACE);
        format!("; place {place}: {}", shown_bytes(&bytes[place * PLACE..end]))
    });
    format!("set of {} bytes, {} places used{}", bytes.len(), used.len(), front.collect::<String>())
}

impl Compared for Asked {
    fn same(&self, other: &Self) -> bool {
        (self.call, &self.set, &self.summary) == (other.call, &other.set, &other.summary)
            && self.card == other.card
            && self.before == other.before
    }

    fn shown(&self) -> String {
        let (card, set) = (shown_bytes(&self.card), shown_set(&self.set));
        format!("{:?}, {} before; card of {card}; summary {:?}; {set}", self.call, self.before, self.summary)
    }
}

impl Compared for Left {
    fn same(&self, other: &Self) -> bool {
        self == other
    }

    fn shown(&self) -> String {
        let around = if self.lent.fences_stand() { "" } else { ", something around them changed" };
        let set = shown_set(self.lent.set());
        format!("{:?}{around}; summary {:?}; {set}", self.answer, self.lent.summary())
    }
}
