//! Sets of key cards: cards put into lent places and taken out again, with a lent summary kept beside them.
use super::KEYS;

/// The places of a set.
pub const SET_PLACES: usize = 1_024;

/// Bytes of a place; it is free where all are 0, else a card stands at its front and zeros behind it.
pub const PLACE_BYTES: usize = 512;

/// Bytes of a set: place p is those from `p * PLACE_BYTES` on.
pub const SET_BYTES: usize = SET_PLACES * PLACE_BYTES;

/// Numbers of a summary: by key number the milliseconds of the key's segments, then two counts.
pub const SUMMARY_NUMBERS: usize = KEYS + 2;

/// Where a summary has the number of cards.
pub const SUMMARY_CARDS: usize = KEYS;

/// Where a summary has the number of cards without a key.
pub const SUMMARY_WITHOUT_KEY: usize = KEYS + 1;

/// The refusal for a card that is longer than a place.
pub const CARD_TOO_LONG: u32 = 30;

/// The refusal for a card to add where no place is free.
pub const SET_FULL: u32 = 31;

/// The refusal for a card to take out that no place has.
pub const NO_SUCH_CARD: u32 = 32;

/// The refusal for a set or a summary of another size, a place that is neither free nor a card with zeros behind it, or
/// a summary that is not what the set's cards give.
pub const SET_NOT_TRUE: u32 = 33;

/// The answer to a call on a set.
#[repr(C)]
#[derive(Debug, Clone, Copy, PartialEq, Eq)]
pub struct SetChange {
    /// 0, or the number of a refusal.
    pub refusal: u32,
    /// The place that was changed, from 0; 0 where the call is refused.
    pub place: u32,
}

unsafe extern "C" {
    fn ulyptesh_add_card(
        set: *mut u8,
        set_count: usize,
        summary: *mut u64,
        summary_count: usize,
        card: *const u8,
        card_count: usize,
    ) -> SetChange;

    fn ulyptesh_remove_card(
        set: *mut u8,
        set_count: usize,
        summary: *mut u64,
        summary_count: usize,
        card: *const u8,
        card_count: usize,
    ) -> SetChange;
}

/// Either of the two calls.
type OnSet = unsafe extern "C" fn(*mut u8, usize, *mut u64, usize, *const u8, usize) -> SetChange;

fn changed(call: OnSet, set: &mut [u8], summary: &mut [u64], card: &[u8]) -> SetChange {
    let ([set_count, summary_count], card_count) = ([set.len(), summary.len()], card.len());
    // SAFETY: each pointer and count are one slice, which outlives the call; set and summary are exclusive.
    unsafe { call(set.as_mut_ptr(), set_count, summary.as_mut_ptr(), summary_count, card.as_ptr(), card_count) }
}

/// Puts a card into the lowest free place of a set, and its numbers into the summary.
pub fn add_card(set: &mut [u8], summary: &mut [u64], card: &[u8]) -> SetChange {
    changed(ulyptesh_add_card, set, summary, card)
}

/// Takes a card out of the lowest place of a set that has its bytes, which become zeros, and its numbers out of the
/// summary.
pub fn remove_card(set: &mut [u8], summary: &mut [u64], card: &[u8]) -> SetChange {
    changed(ulyptesh_remove_card, set, summary, card)
}
