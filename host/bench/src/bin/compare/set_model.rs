//! A set of cards by the request's words: a list of 1,024 places, each free or with a card. Its bytes and its summary
//! are worked out from the list, afresh each time.
use crate::card_model::{MISSING, Meaning};
use ulyptesh::calls::SetChange;

/// Places of a set, bytes of a place, and bytes of the set.
pub const PLACES: usize = 1_024;
pub const PLACE: usize = 512;
pub const SET: usize = PLACES * PLACE;

/// Numbers of a summary: milliseconds of each key, cards, and cards without a key.
pub const NUMBERS: usize = KEYS + 2;
const KEYS: usize = MISSING as usize;

/// The refusals of a set, beside those of reading.
pub const CARD_TOO_LONG: u32 = 30;
pub const SET_FULL: u32 = 31;
pub const NO_SUCH_CARD: u32 = 32;
pub const NOT_TRUE: u32 = 33;

/// A place that is free.
const FREE: [u8; PLACE] = [0; PLACE];

/// Which of the two calls.
#[derive(Debug, Clone, Copy, PartialEq, Eq, Hash)]
pub enum Call {
    Add,
    Remove,
}

pub const CALLS: [Call; 2] = [Call::Add, Call::Remove];

/// A card by its bytes, and what they say.
#[derive(Debug, Clone)]
struct Card {
    bytes: Vec<u8>,
    said: Meaning,
}

/// What each place holds, the lowest first.
#[derive(Debug, Clone)]
pub struct Set(Vec<Option<Card>>);

/// What a card says that reads and fits a place, or the number of the first refusal that applies.
pub fn fitting(bytes: &[u8]) -> Result<Meaning, u32> {
    let said = Meaning::read(bytes)?;
    if bytes.len() > PLACE { Err(CARD_TOO_LONG) } else { Ok(said) }
}

impl Card {
    fn read(bytes: &[u8]) -> Result<Self, u32> {
        fitting(bytes).map(|said| Self { bytes: bytes.to_vec(), said })
    }
}

/// Each segment's key and milliseconds.
fn lengths(said: &Meaning) -> impl Iterator<Item = (usize, u128)> {
    let segments = said.starts().zip(&said.segments);
    segments.map(|(start, segment)| (segment.key as usize, u128::from(segment.end - start)))
}

/// Milliseconds by key, how many cards, and how many without a key.
pub fn summary_of<'a>(cards: impl Iterator<Item = &'a Meaning> + Clone) -> Vec<u64> {
    let mut milliseconds = [0; KEYS];
    cards.clone().flat_map(lengths).for_each(|(key, length)| milliseconds[key] += length);
    let keyless = cards.clone().filter(|card| card.key == MISSING).count();
    let counts = [cards.count(), keyless].map(|count| count as u128);
    let numbers = milliseconds.into_iter().chain(counts);
    numbers.map(|number| number.try_into().expect("no total wraps")).collect()
}

/// What a place holds: nothing where all its bytes are 0, else the card at its front with zeros behind it.
fn held_by(place: &[u8]) -> Result<Option<Card>, u32> {
    if *place == FREE {
        return Ok(None);
    }
    let zeros = place.iter().rev().take_while(|&&byte| byte == 0).count();
    let mut fronts = (PLACE - zeros..=PLACE).map(|length| Card::read(&place[..length]));
    fronts.find_map(Result::ok).map(Some).ok_or(NOT_TRUE)
}

impl Set {
    pub fn empty() -> Self {
        Self(vec![None; PLACES])
    }

    /// These cards at these places.
    pub fn of(cards: impl IntoIterator<Item = (usize, Vec<u8>)>) -> Self {
        let mut set = Self::empty();
        for (place, bytes) in cards {
            set.0[place] = Some(Card::read(&bytes).expect("a card that fits a place"));
        }
        set
    }

    /// What lent bytes hold, or the refusal where there are too many or too few, or a place is spoilt.
    pub fn in_bytes(bytes: &[u8]) -> Result<Self, u32> {
        if bytes.len() != SET {
            return Err(NOT_TRUE);
        }
        bytes.chunks(PLACE).map(held_by).collect::<Result<_, _>>().map(Self)
    }

    /// The same beside a summary, which has to be the set's.
    pub fn lent(bytes: &[u8], summary: &[u64]) -> Result<Self, u32> {
        Self::in_bytes(bytes).and_then(|set| if set.summary() == summary { Ok(set) } else { Err(NOT_TRUE) })
    }

    /// What a call answers; the list is then as it leaves it.
    pub fn change(&mut self, call: Call, card: &[u8]) -> SetChange {
        let changed = Card::read(card).and_then(|card| match call {
            Call::Add => self.add(card),
            Call::Remove => self.remove(&card),
        });
        changed.map_or_else(refused, |place| SetChange { refusal: 0, place: place as u32 })
    }

    fn add(&mut self, card: Card) -> Result<usize, u32> {
        let place = self.0.iter().position(Option::is_none).ok_or(SET_FULL)?;
        self.0[place] = Some(card);
        Ok(place)
    }

    fn remove(&mut self, card: &Card) -> Result<usize, u32> {
        let is_equal = |held: &Option<Card>| held.as_ref().is_some_and(|held| held.bytes == card.bytes);
        let place = self.0.iter().position(is_equal).ok_or(NO_SUCH_CARD)?;
        self.0[place] = None;
        Ok(place)
    }

    /// The summary of the cards that it now has.
    pub fn summary(&self) -> Vec<u64> {
        summary_of(self.0.iter().flatten().map(|card| &card.said))
    }

    /// The set without what it has at that place.
    pub fn without(&self, place: usize) -> Self {
        let mut others = self.clone();
        others.0[place] = None;
        others
    }

    /// The bytes of its cards, by place.
    pub fn cards(&self) -> impl Iterator<Item = (usize, &[u8])> {
        let held = self.0.iter().enumerate();
        held.filter_map(|(place, card)| card.as_ref().map(|card| (place, &card.bytes[..])))
    }

    /// All its bytes.
    pub fn bytes(&self) -> Vec<u8> {
        let mut bytes = vec![0; SET];
        self.cards().for_each(|(place, card)| bytes[place * PLACE..][..card.len()].copy_from_slice(card));
        bytes
    }

    /// The first place where these bytes are not the set's.
    pub fn other_place(&self, bytes: &[u8]) -> Option<usize> {
        let differs = |(held, place): (&Option<Card>, &[u8])| match held {
            None => *place != FREE,
            Some(card) => {
                let (front, behind) = place.split_at(card.bytes.len());
                front != card.bytes || *behind != FREE[front.len()..]
            }
        };
        self.0.iter().zip(bytes.chunks(PLACE)).position(differs)
    }
}

/// The answer to a call that is refused.
pub fn refused(refusal: u32) -> SetChange {
    SetChange { refusal, place: 0 }
}
