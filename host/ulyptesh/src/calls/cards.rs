//! Key cards, written into lent bytes.
use super::written::Written;

/// The most segments on a card; layout 1 holds 1,023 of them, up to 14,400,000 ms, and layout 2 all, up to 86,400,000.
pub const MOST_CARD_SEGMENTS: usize = 4_095;

/// Bytes of a card without segments: 49 bits of header in layout 1.
pub const SHORTEST_CARD: usize = 49usize.div_ceil(8);

/// Bytes of a card with as many segments as it can have: in layout 2, 51 bits of header and 42 for each.
pub const LONGEST_CARD: usize = (51 + 42 * MOST_CARD_SEGMENTS).div_ceil(8);

/// What a card is written from: keys by number, times in seconds, confidences and the coverage from 0 to 1. The same
/// in packed numbers is [`PackedFields`](super::PackedFields).
#[derive(Debug, Clone, Copy)]
pub struct CardFields<'a, Part = f32, Time = f64, SegmentPart = f32> {
    /// The reported key, 24 where there is none.
    pub key: u32,
    /// The key by profiles alone, 24 where there is none.
    pub dsp_key: u32,
    /// The alternate key, 24 where there is none.
    pub alternate: u32,
    /// The alternate's part of the track.
    pub coverage: Part,
    /// The confidence in the key.
    pub confidence: Part,
    /// Where each segment starts.
    pub starts: &'a [Time],
    /// Where each segment ends.
    pub ends: &'a [Time],
    /// The key of each segment.
    pub keys: &'a [u8],
    /// The confidence in each segment.
    pub confidences: &'a [SegmentPart],
}

unsafe extern "C" {
    fn ulyptesh_write_card(
        key: u32,
        dsp_key: u32,
        alternate: u32,
        coverage: f32,
        confidence: f32,
        starts: *const f64,
        start_count: usize,
        ends: *const f64,
        end_count: usize,
        keys: *const u8,
        key_count: usize,
        confidences: *const f32,
        confidence_count: usize,
        bytes: *mut u8,
        lent: usize,
    ) -> Written;
}

/// Writes a card to the front of the bytes, in layout 1 where that holds it, else in layout 2; those behind it stay.
/// Times become milliseconds, confidences and the coverage thousandths, all rounded down, so that no end lies after the
/// audio; two ends in one millisecond, and a number below 0, are refused.
pub fn write_card(told: &CardFields<'_>, bytes: &mut [u8]) -> Written {
    // SAFETY: each pointer and count are one slice, which outlives the call; the bytes are exclusive.
    unsafe {
        ulyptesh_write_card(
            told.key,
            told.dsp_key,
            told.alternate,
            told.coverage,
            told.confidence,
            told.starts.as_ptr(),
            told.starts.len(),
            told.ends.as_ptr(),
            told.ends.len(),
            told.keys.as_ptr(),
            told.keys.len(),
            told.confidences.as_ptr(),
            told.confidences.len(),
            bytes.as_mut_ptr(),
            bytes.len(),
        )
    }
}
