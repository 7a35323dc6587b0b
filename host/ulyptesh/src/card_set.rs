//! Sets of key cards, with totals that stay true.
use crate::calls::{
    CARD_WRONG_LENGTH, PLACE_BYTES, SET_BYTES, SUMMARY_NUMBERS, SetChange, add_card, remove_card,
};
use crate::card::card_in;
use crate::refusal::Refusal;
use crate::set_totals::SetTotals;
use std::fmt;

/// Up to 1,024 key cards of up to 512 bytes, and the totals of their keys: cards are put in and taken out by their
/// bytes, and after each call the [`totals`](Self::totals) are those of the cards that are then there. A call that is
/// refused changes nothing.
///
/// A set is kept as [`bytes`](Self::bytes) and [`summary`](Self::summary), which a program may store and load again.
/// Whoever stored them is not trusted: each call reads the whole set, works the summary out afresh, and refuses (33)
/// where that is another.
///
/// ```
/// use ulyptesh::{Card, CardSet, Refusal};
/// # fn main() -> Result<(), Refusal> {
/// let bytes = [0x1A, 0xD7, 0x00, 0x03, 0xE8, 0x00, 0x81, 0x5F, 0x90, 0x55, 0xF4];
/// let (card, no_key) = (Card::read(&bytes)?, [0x1C, 0x63, 0x00, 0x00, 0x00, 0x00, 0x00]);
/// let mut set = CardSet::new();
/// assert_eq!((set.add(&bytes), set.add(&no_key), set.add(&card.to_bytes())), (Ok(0), Ok(1), Ok(2)));
///
/// let told = set.totals();
/// assert_eq!((told.cards, told.without_key, told.total_ms()), (3, 1, 360_000));
/// let (first, ms) = told.ranked()[0];
/// assert_eq!((first.name(), ms, told.share(first)), ("A minor".into(), 360_000, Some(1.0)));
///
/// assert_eq!(set.remove(&bytes), Ok(0)); // the lowest place that has it
/// let mut loaded = CardSet::from_parts(set.bytes(), set.summary());
/// assert_eq!((loaded.check(), loaded.totals().total_ms()), (Ok(()), 180_000));
/// assert_eq!(loaded.cards().collect::<Vec<_>>(), [(1, &no_key[..]), (2, &bytes[..])]);
/// assert_eq!(loaded.remove(&bytes), Ok(2));
/// assert_eq!(loaded.remove(&bytes), Err(Refusal::NoSuchCard));
/// # Ok(())
/// # }
/// ```
#[derive(Clone, PartialEq, Eq)]
pub struct CardSet {
    bytes: Vec<u8>,
    summary: Vec<u64>,
}

/// The place that was changed, or why none was.
fn place(change: SetChange, card: &[u8]) -> Result<usize, Refusal> {
    match change {
        SetChange { refusal: 0, place } => Ok(place as usize),
        SetChange { refusal, .. } => Err(Refusal::of_set(refusal, card)),
    }
}

impl CardSet {
    /// A set without cards.
    pub fn new() -> Self {
        Self::from_parts(vec![0; SET_BYTES], vec![0; SUMMARY_NUMBERS])
    }

    /// A set of these bytes and this summary, as [`bytes`](Self::bytes) and [`summary`](Self::summary) gave them.
    /// Anything is taken; where the two are not those of a set, each call refuses with 33 and changes nothing.
    pub fn from_parts(bytes: impl Into<Vec<u8>>, summary: impl Into<Vec<u64>>) -> Self {
        Self { bytes: bytes.into(), summary: summary.into() }
    }

    /// Puts a card into the lowest free place, which is answered; one that is there already is put there once more.
    /// Refused are, in this order, a set that is not true (33), bytes that are no card (20 to 23, as
    /// [`Card::read`](crate::Card::read) does), a card of more than 512 bytes (30), and any where no place is free (31).
    pub fn add(&mut self, card: &[u8]) -> Result<usize, Refusal> {
        place(add_card(&mut self.bytes, &mut self.summary, card), card)
    }

    /// Takes a card out of the lowest place that has its bytes, which is answered and then free; the others stay where
    /// they are. Refused as in [`add`](Self::add), with 32 in place of 31 where no place has such a card.
    pub fn remove(&mut self, card: &[u8]) -> Result<usize, Refusal> {
        place(remove_card(&mut self.bytes, &mut self.summary, card), card)
    }

    /// Whether the set is true, so that its totals are those of its cards: refused with 33 where it is not. Nothing is
    /// changed. Only a set that [`from_parts`](Self::from_parts) made can fail.
    pub fn check(&mut self) -> Result<(), Refusal> {
        // no bytes are no card, which a set tells where it is true
        match remove_card(&mut self.bytes, &mut self.summary, &[]).refusal {
            CARD_WRONG_LENGTH => Ok(()),
            refusal => Err(Refusal::of_set(refusal, &[])),
        }
    }

    /// The totals of the cards that are in the set, as its summary says them.
    pub fn totals(&self) -> SetTotals {
        SetTotals::of(&self.summary)
    }

    /// The places, one behind the other: 524,288 bytes.
    pub fn bytes(&self) -> &[u8] {
        &self.bytes
    }

    /// The summary: 24 totals of milliseconds by key number, the number of cards, and the number without a key.
    pub fn summary(&self) -> &[u64] {
        &self.summary
    }

    /// The bytes of each card in the set, behind its place, from the lowest place on. In a set that is not true a place
    /// that has no card gives all its bytes.
    pub fn cards(&self) -> impl Iterator<Item = (usize, &[u8])> {
        let places = self.bytes.as_chunks::<PLACE_BYTES>().0.iter().enumerate();
        places
            .filter(|(_, place)| place.iter().any(|&byte| byte != 0))
            .map(|(at, place)| (at, card_in(place)))
    }
}

impl Default for CardSet {
    fn default() -> Self {
        Self::new()
    }
}

/// With its summary, and without its half a million bytes.
impl fmt::Debug for CardSet {
    fn fmt(&self, out: &mut fmt::Formatter<'_>) -> fmt::Result {
        out.debug_struct("CardSet").field("summary", &self.summary).finish_non_exhaustive()
    }
}

#[cfg(test)]
mod tests {
    use super::*;
    use crate::calls::{SET_PLACES, SUMMARY_CARDS, SUMMARY_WITHOUT_KEY};
    use crate::card::Card;
    use crate::made::{Random, all_told, analysis, card_of_count, card_up_to};

    /// Rows o and p of the request: a lone segment of three minutes in A minor, and the empty analysis.
    const ROW_O: [u8; 11] = [0x1A, 0xD7, 0x00, 0x03, 0xE8, 0x00, 0x81, 0x5F, 0x90, 0x55, 0xF4];
    const ROW_P: [u8; 7] = [0x1C, 0x63, 0x00, 0x00, 0x00, 0x00, 0x00];

    /// So many calls of a history, over so many cards of which each is met again and again.
    const CALLS: usize = 600;
    const CARDS: usize = 40;

    fn set_of(cards: &[&[u8]]) -> CardSet {
        let mut set = CardSet::new();
        cards.iter().enumerate().for_each(|(at, card)| assert_eq!(set.add(card), Ok(at)));
        set
    }

    /// The cards by their places, copied.
    fn cards_of(set: &CardSet) -> Vec<(usize, Vec<u8>)> {
        set.cards().map(|(at, card)| (at, card.to_vec())).collect()
    }

    /// A summary worked out from cards as decks read them.
    fn afresh<'a>(cards: impl Iterator<Item = &'a [u8]>) -> Vec<u64> {
        let mut summary = vec![0; SUMMARY_NUMBERS];
        for card in cards.map(|bytes| Card::read(bytes).expect("a card that was taken")) {
            for segment in card.segments() {
                let ms = segment.end_ms - segment.start_ms;
                summary[usize::from(segment.key.number())] += u64::from(ms);
            }
            summary[SUMMARY_CARDS] += 1;
            summary[SUMMARY_WITHOUT_KEY] += u64::from(card.key().is_none());
        }
        summary
    }

    /// A card in layout 2 of so many segments, the last of which ends too late for layout 1.
    fn late_card(count: u32) -> Vec<u8> {
        let ends: Vec<u32> = (1..count).chain([14_400_001]).collect();
        card_up_to(&ends).expect("a card")
    }

    #[test]
    fn cards_take_the_lowest_free_place() {
        let mut set = set_of(&[&ROW_O, &ROW_P, &ROW_O]);
        assert_eq!(set.remove(&ROW_P), Ok(1));
        assert_eq!((set.add(&ROW_O), set.add(&ROW_P)), (Ok(1), Ok(3)));
        let of_equal_ones = [set.remove(&ROW_O), set.remove(&ROW_O), set.remove(&ROW_O), set.remove(&ROW_O)];
        assert_eq!(of_equal_ones, [Ok(0), Ok(1), Ok(2), Err(Refusal::NoSuchCard)]);
        assert_eq!(cards_of(&set), [(3, ROW_P.to_vec())]);
    }

    /// A call on the set and on a list of places, which then hold the same; the summary is worked out anew.
    fn compare_call(set: &mut CardSet, places: &mut [Option<Vec<u8>>], card: &[u8], adds: bool) {
        let wanted = if adds { None } else { Some(card.to_vec()) };
        let lowest = places.iter().position(|place| *place == wanted);
        let answer = if adds { set.add(card) } else { set.remove(card) };
        assert_eq!(answer, lowest.ok_or(Refusal::NoSuchCard));
        if let Some(at) = lowest {
            places[at] = adds.then(|| card.to_vec());
        }
        let there: Vec<(usize, &[u8])> =
            places.iter().enumerate().filter_map(|(at, place)| Some((at, place.as_deref()?))).collect();
        assert_eq!(set.cards().collect::<Vec<_>>(), there);
        assert_eq!(set.summary(), afresh(there.iter().map(|place| place.1)));
    }

    #[test]
    fn a_summary_is_always_that_of_the_cards_in_the_set() {
        let cards: Vec<Vec<u8>> =
            all_told().take(CARDS).map(|told| analysis(&told).card().expect("a card")).collect();
        let (mut set, mut places, mut random) = (CardSet::new(), vec![None; SET_PLACES], Random(9));
        for _ in 0..CALLS {
            let card = &cards[random.below(cards.len() as u64) as usize];
            compare_call(&mut set, &mut places, card, random.below(5) < 3);
        }
        assert!(set.totals().cards > 0 && set.totals().without_key > 0);
    }

    #[test]
    fn cards_have_the_length_that_was_put_in() {
        let of_1 = (0..=103).map(|count| card_of_count(count).expect("a card"));
        let cards: Vec<Vec<u8>> = of_1.chain((1..=96).map(late_card)).collect();
        let set = set_of(&cards.iter().map(Vec::as_slice).collect::<Vec<_>>());
        assert_eq!(cards.iter().map(Vec::len).max(), Some(511));
        assert_eq!(cards_of(&set), cards.into_iter().enumerate().collect::<Vec<_>>());
    }

    #[test]
    fn a_full_set_takes_no_card_more() {
        let summary = [vec![0; SUMMARY_CARDS], vec![SET_PLACES as u64; 2]].concat();
        let place = [&ROW_P[..], &[0; PLACE_BYTES - 7]].concat();
        let mut set = CardSet::from_parts(place.repeat(SET_PLACES), summary);
        let before = set.clone();
        assert_eq!(set.add(&ROW_O), Err(Refusal::SetFull));
        assert_eq!(set.add(&ROW_O[1..]).map_err(|why| why.number()), Err(21));
        assert_eq!(set, before);
        assert_eq!((set.remove(&ROW_P), set.add(&ROW_O)), (Ok(0), Ok(0)));
        assert_eq!(set.totals().without_key, 1_023);
        assert_eq!((set.add(&ROW_P), set.remove(&ROW_O)), (Err(Refusal::SetFull), Ok(0)));
    }

    #[test]
    fn a_refused_card_changes_nothing() {
        let (needless, filler) = ([&[0x2C], &ROW_P[1..]].concat(), [&ROW_P[..6], &[1]].concat());
        let (long_of_1, long_of_2) = (card_of_count(104).expect("a card"), late_card(97));
        let cases: [(&[u8], u32); 8] = [
            (&[], 20),
            (&ROW_O[..10], 20),
            (&[0x30; 512], 21),
            (&filler, 22),
            (&needless, 23),
            (&long_of_1[1..], 21),
            (&long_of_1, 30),
            (&long_of_2, 30),
        ];
        let mut set = set_of(&[&ROW_O, &ROW_P]);
        let before = set.clone();
        for (card, number) in cases {
            assert_eq!(set.add(card).map_err(|why| why.number()), Err(number));
            assert_eq!(set.remove(card).map_err(|why| why.number()), Err(number));
            assert_eq!(set, before);
        }
        let words = "the card has 514 bytes, and a set takes cards of up to 512 (refusal 30)";
        assert_eq!(set.add(&long_of_1).expect_err("a long card").to_string(), words);
    }

    #[test]
    fn a_set_is_stored_and_loaded() {
        let mut set = set_of(&[&ROW_O, &ROW_P, &late_card(3)]);
        assert_eq!(set.remove(&ROW_O), Ok(0));
        let stored: Vec<u8> = set.summary().iter().flat_map(|number| number.to_le_bytes()).collect();
        let numbers = stored.as_chunks().0.iter().map(|&bytes| u64::from_le_bytes(bytes));
        let mut loaded = CardSet::from_parts(set.bytes().to_vec(), numbers.collect::<Vec<u64>>());
        assert_eq!((&loaded, loaded.totals()), (&set, set.totals()));
        assert_eq!((loaded.check(), loaded.add(&ROW_O)), (Ok(()), Ok(0)));
    }

    /// Each call refuses the set with 33, whatever the card, and changes nothing.
    fn is_not_true(mut set: CardSet) {
        let before = set.clone();
        for card in [&ROW_O[..], &ROW_P, &[], &[0x30; 900]] {
            assert_eq!(set.add(card), Err(Refusal::SetNotTrue));
            assert_eq!(set.remove(card), Err(Refusal::SetNotTrue));
        }
        assert_eq!((set.check(), &set), (Err(Refusal::SetNotTrue), &before));
    }

    #[test]
    fn a_spoilt_summary_is_refused() {
        let set = set_of(&[&ROW_O, &ROW_P]);
        for at in 0..SUMMARY_NUMBERS {
            let mut more = set.clone();
            more.summary[at] = more.summary[at].wrapping_add(1);
            let mut less = set.clone();
            less.summary[at] = less.summary[at].wrapping_sub(1);
            [more, less].into_iter().for_each(is_not_true);
        }
    }

    /// A layout, an end and what is behind a card, in both places; free places.
    #[test]
    fn a_spoilt_place_is_refused() {
        let set = set_of(&[&ROW_O, &ROW_P]);
        for at in [0, 7, 11, 511, 512, 519, 1_023, 1_024, SET_BYTES - PLACE_BYTES, SET_BYTES - 1] {
            let mut spoilt = set.clone();
            spoilt.bytes[at] ^= 0x20;
            is_not_true(spoilt);
        }
    }

    #[test]
    fn parts_of_other_sizes_are_refused() {
        let set = set_of(&[&ROW_O, &ROW_P]);
        let (bytes, summary) = (set.bytes(), set.summary());
        let longer = [bytes, &[0; PLACE_BYTES]].concat();
        for other in [&[], &bytes[..SET_BYTES - 1], &bytes[..SET_BYTES - PLACE_BYTES], &longer] {
            is_not_true(CardSet::from_parts(other, summary));
        }
        for other in [&[], &summary[..SUMMARY_NUMBERS - 1], &[summary, &[0]].concat()] {
            is_not_true(CardSet::from_parts(bytes, other));
        }
    }

    #[test]
    fn places_without_a_card_are_given_whole() {
        let (strange, late) = ([0x30; PLACE_BYTES], late_card(97));
        let places = [&strange[..], &late[..PLACE_BYTES], &[0; PLACE_BYTES], &[1; 9]].concat();
        let set = CardSet::from_parts(places, []);
        assert_eq!(set.cards().collect::<Vec<_>>(), [(0, &strange[..]), (1, &late[..PLACE_BYTES])]);
    }
}
