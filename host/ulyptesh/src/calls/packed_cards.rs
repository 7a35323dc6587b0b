//! Key cards in thousandths and milliseconds: read into lent rows, and written again into lent bytes.
use super::by_pointer::answer_of;
use super::cards::CardFields;
use super::written::Written;

/// The refusal for under 7 bytes or, where the layout is known, another length than the segment count gives.
pub const CARD_WRONG_LENGTH: u32 = 20;

/// The refusal for a layout that is not known; 1 and 2 are.
pub const CARD_UNKNOWN_LAYOUT: u32 = 21;

/// The refusal for a broken card rule, or a bit set that fills the last byte.
pub const CARD_BROKEN: u32 = 22;

/// The refusal for a card in layout 2 that layout 1 would have held.
pub const CARD_NEEDLESS_LAYOUT: u32 = 23;

/// The refusal for fewer segment rows than the card has segments.
pub const TOO_FEW_CARD_ROWS: u32 = 24;

/// What a card says beside its segments; refused, it has keys 24 and zeros.
#[repr(C)]
#[derive(Debug, Clone, Copy, PartialEq, Eq)]
pub struct CardRead {
    /// 0, or the number of a refusal.
    pub refusal: u32,
    /// The key, 24 where there is none.
    pub key: u32,
    /// The key by profiles alone, 24 where there is none.
    pub dsp_key: u32,
    /// The alternate key, 24 where there is none.
    pub alternate: u32,
    /// The alternate's part of the track, in thousandths.
    pub coverage: u32,
    /// The confidence in the key, in thousandths.
    pub confidence: u32,
    /// How many rows are written.
    pub segments: u64,
}

/// What a packed card is written from: times in milliseconds, confidences and the coverage in thousandths.
pub type PackedFields<'a> = CardFields<'a, u32, u32, u16>;

unsafe extern "C" {
    fn ulyptesh_read_card(
        answer: *mut CardRead,
        bytes: *const u8,
        byte_count: usize,
        starts: *mut u32,
        start_count: usize,
        ends: *mut u32,
        end_count: usize,
        keys: *mut u8,
        key_count: usize,
        confidences: *mut u16,
        confidence_count: usize,
    ) -> *mut CardRead;

    fn ulyptesh_write_packed_card(
        key: u32,
        dsp_key: u32,
        alternate: u32,
        coverage: u32,
        confidence: u32,
        starts: *const u32,
        start_count: usize,
        ends: *const u32,
        end_count: usize,
        keys: *const u8,
        key_count: usize,
        confidences: *const u16,
        confidence_count: usize,
        bytes: *mut u8,
        lent: usize,
    ) -> Written;
}

/// Reads a card, its segments to the front of the rows: starts and ends in milliseconds, keys, confidences in
/// thousandths. The shortest list is the room; the rows behind the segments stay.
pub fn read_card(
    bytes: &[u8],
    starts: &mut [u32],
    ends: &mut [u32],
    keys: &mut [u8],
    confidences: &mut [u16],
) -> CardRead {
    // SAFETY: each pointer and count are one slice, which outlives the call; the rows are exclusive, and the call
    // writes its whole answer.
    unsafe {
        answer_of(|answer| {
            ulyptesh_read_card(
                answer,
                bytes.as_ptr(),
                bytes.len(),
                starts.as_mut_ptr(),
                starts.len(),
                ends.as_mut_ptr(),
                ends.len(),
                keys.as_mut_ptr(),
                keys.len(),
                confidences.as_mut_ptr(),
                confidences.len(),
            )
        })
    }
}

/// Writes a card of packed numbers to the front of the bytes, in layout 1 where that holds it, else in layout 2; those
/// behind it stay.
pub fn write_packed_card(told: &PackedFields<'_>, bytes: &mut [u8]) -> Written {
    // SAFETY: each pointer and count are one slice, which outlives the call; the bytes are exclusive.
    unsafe {
        ulyptesh_write_packed_card(
            told.key,
            told.dsp_key,
            told.alternate,
            told.coverage,
            told.confidence,
            told.starts.as_ptr(),
            told.starts.len(),
            told.ends.as_ptr(),
            told.ends.len(),
            told.keys.as_ptr(),
            told.keys.len(),
            told.confidences.as_ptr(),
            told.confidences.len(),
            bytes.as_mut_ptr(),
            bytes.len(),
        )
    }
}

#[cfg(test)]
mod tests {
    use super::*;
    use crate::calls::NO_KEY;

    /// A card of two segments, in C major and F# minor.
    const CARD: [u8; 16] =
        [0x10, 0x02, 0x4B, 0xBA, 0x3E, 0x01, 0x00, 0x1D, 0x4C, 0x01, 0x9B, 0x00, 0x5D, 0xC0, 0x92, 0x0C];

    /// What is left in rows of so many entries, each 9 before, and the answer.
    fn read_into([starts, ends, keys, confidences]: [usize; 4]) -> (CardRead, [Vec<u32>; 4]) {
        let (mut starts, mut ends) = (vec![9; starts], vec![9; ends]);
        let (mut keys, mut confidences) = (vec![9; keys], vec![9; confidences]);
        let told = read_card(&CARD, &mut starts, &mut ends, &mut keys, &mut confidences);
        let keys = keys.into_iter().map(u32::from).collect();
        (told, [starts, ends, keys, confidences.into_iter().map(u32::from).collect()])
    }

    #[test]
    fn rows_behind_the_segments_stay() {
        let (told, rows) = read_into([2, 3, 4, 3]);
        let head = CardRead {
            refusal: 0,
            key: 0,
            dsp_key: 0,
            alternate: 18,
            coverage: 375,
            confidence: 287,
            segments: 2,
        };
        assert_eq!(told, head);
        let [starts, ends, keys, confidences] = rows;
        assert_eq!((starts, ends), (vec![0, 15_000], vec![15_000, 24_000, 9]));
        assert_eq!((keys, confidences), (vec![0, 18, 9, 9], vec![411, 262, 9]));
    }

    #[test]
    fn too_few_rows_change_nothing() {
        for rooms in [[1, 2, 2, 2], [2, 1, 2, 2], [2, 2, 1, 2], [2, 2, 2, 1], [2, 2, 2, 0], [0; 4]] {
            let (told, rows) = read_into(rooms);
            let keys = [told.key, told.dsp_key, told.alternate];
            assert_eq!((told.refusal, keys), (TOO_FEW_CARD_ROWS, [NO_KEY; 3]));
            assert_eq!((told.coverage, told.confidence, told.segments), (0, 0, 0));
            assert_eq!(rows, rooms.map(|room| vec![9; room]));
        }
    }
}
