//! From frames to segments and the alternate key, step by step.
use ulyptesh::calls::{EstimateRows, SegmentRows, answer_of};
use ulyptesh::{Chroma, Settings};

/// What segments rest on beside the estimates: `key` and `confidence` are the whole track's.
#[derive(Debug, Clone, Copy, PartialEq)]
pub struct Cutting {
    pub threshold: f32,
    pub minimum: f64,
    pub duration: f64,
    pub key: u8,
    pub confidence: f32,
}

/// A track as its segments see it: `key` and `confidence` are the whole track's, a frame is a centre and values.
#[derive(Debug, Clone, PartialEq)]
pub struct Track {
    pub settings: Settings,
    pub samples: usize,
    pub key: u8,
    pub confidence: f32,
    pub centres: Vec<f64>,
    pub values: Vec<Chroma>,
}

/// The library's answer: an alternate key with its coverage, or 24 and 0.
#[repr(C)]
#[derive(Debug, Clone, Copy, PartialEq)]
pub struct ProbedAlternate {
    pub key: u8,
    pub coverage: f32,
}

/// The library's answer: how many estimates and segments stand in their rows, or an outcome other than 0.
#[repr(C)]
#[derive(Debug, Clone, Copy, PartialEq, Eq)]
pub struct ProbedSegments {
    pub outcome: u32,
    pub estimates: usize,
    pub segments: usize,
}

/// The outcome where some rows are fewer than the windows, or the hop is not above 0.
pub const NOT_RUN: u32 = 8;

#[expect(improper_ctypes, reason = "the settings are those of the C header, whatever is added to them")]
unsafe extern "C" {
    fn probe_majority(numbers: *const u8, number_count: usize) -> u8;

    fn probe_shorten(
        least: f64,
        starts: *mut f64,
        start_count: usize,
        ends: *mut f64,
        end_count: usize,
        keys: *mut u8,
        key_count: usize,
        confidences: *mut f32,
        confidence_count: usize,
        counts: *mut u32,
        count_count: usize,
    ) -> usize;

    fn probe_reported(
        classified: u8,
        starts: *const f64,
        start_count: usize,
        ends: *const f64,
        end_count: usize,
        keys: *const u8,
        key_count: usize,
    ) -> u8;

    fn probe_alternate(
        reported: u8,
        threshold: f32,
        starts: *const f64,
        start_count: usize,
        ends: *const f64,
        end_count: usize,
        keys: *const u8,
        key_count: usize,
    ) -> ProbedAlternate;

    fn probe_cut(
        threshold: f32,
        minimum: f64,
        duration: f64,
        key: u8,
        confidence: f32,
        middles: *const f64,
        middle_count: usize,
        numbers: *const u8,
        number_count: usize,
        certainties: *const f32,
        certainty_count: usize,
        starts: *mut f64,
        start_count: usize,
        ends: *mut f64,
        end_count: usize,
        keys: *mut u8,
        key_count: usize,
        confidences: *mut f32,
        confidence_count: usize,
        counts: *mut u32,
        count_count: usize,
    ) -> usize;

    fn probe_segments(
        answer: *mut ProbedSegments,
        settings: Settings,
        samples: usize,
        key: u8,
        confidence: f32,
        centres: *const f64,
        centre_count: usize,
        values: *const Chroma,
        value_count: usize,
        middles: *mut f64,
        middle_count: usize,
        numbers: *mut u8,
        number_count: usize,
        certainties: *mut f32,
        certainty_count: usize,
        shapeless: *mut u8,
        shapeless_count: usize,
        starts: *mut f64,
        start_count: usize,
        ends: *mut f64,
        end_count: usize,
        keys: *mut u8,
        key_count: usize,
        confidences: *mut f32,
        confidence_count: usize,
        counts: *mut u32,
        count_count: usize,
    ) -> *mut ProbedSegments;
}

/// The key number that most are, of equal counts the one first met last; 0 where there are none.
pub fn majority(numbers: &[u8]) -> u8 {
    // SAFETY: pointer and count are one slice, which outlives the call.
    unsafe { probe_majority(numbers.as_ptr(), numbers.len()) }
}

/// Joins all short segments, and tells how many are left; emptied rows hold zeros. Where a number is no key's, or the
/// counts add up to 2^32 or more, it is 0 and no row changes.
pub fn shorten(least: f64, rows: &mut SegmentRows) -> usize {
    // SAFETY: each pointer and its count are one exclusive slice, which outlives the call.
    unsafe {
        probe_shorten(
            least,
            rows.starts.as_mut_ptr(),
            rows.starts.len(),
            rows.ends.as_mut_ptr(),
            rows.ends.len(),
            rows.keys.as_mut_ptr(),
            rows.keys.len(),
            rows.confidences.as_mut_ptr(),
            rows.confidences.len(),
            rows.counts.as_mut_ptr(),
            rows.counts.len(),
        )
    }
}

/// Of several segments the longest one's key, the last of equals; else the classified key.
pub fn reported(classified: u8, rows: &SegmentRows) -> u8 {
    // SAFETY: each pointer and its count are one slice, which outlives the call.
    unsafe {
        probe_reported(
            classified,
            rows.starts.as_ptr(),
            rows.starts.len(),
            rows.ends.as_ptr(),
            rows.ends.len(),
            rows.keys.as_ptr(),
            rows.keys.len(),
        )
    }
}

/// The other key with the most seconds, where they cover enough.
pub fn alternate(reported: u8, threshold: f32, rows: &SegmentRows) -> ProbedAlternate {
    // SAFETY: each pointer and its count are one slice, which outlives the call.
    unsafe {
        probe_alternate(
            reported,
            threshold,
            rows.starts.as_ptr(),
            rows.starts.len(),
            rows.ends.as_ptr(),
            rows.ends.len(),
            rows.keys.as_ptr(),
            rows.keys.len(),
        )
    }
}

/// Writes the segments of these estimates to the front of the rows, short ones joined, and tells how many.
pub fn cut(cutting: Cutting, estimates: &EstimateRows, rows: &mut SegmentRows) -> usize {
    // SAFETY: each pointer and its count are one slice, which outlives the call; the segment rows are exclusive.
    unsafe {
        probe_cut(
            cutting.threshold,
            cutting.minimum,
            cutting.duration,
            cutting.key,
            cutting.confidence,
            estimates.middles.as_ptr(),
            estimates.middles.len(),
            estimates.numbers.as_ptr(),
            estimates.numbers.len(),
            estimates.certainties.as_ptr(),
            estimates.certainties.len(),
            rows.starts.as_mut_ptr(),
            rows.starts.len(),
            rows.ends.as_mut_ptr(),
            rows.ends.len(),
            rows.keys.as_mut_ptr(),
            rows.keys.len(),
            rows.confidences.as_mut_ptr(),
            rows.confidences.len(),
            rows.counts.as_mut_ptr(),
            rows.counts.len(),
        )
    }
}

/// Writes a track's estimates and segments to the front of their rows, as the library answers it.
pub fn segments(track: &Track, estimates: &mut EstimateRows, rows: &mut SegmentRows) -> ProbedSegments {
    // SAFETY: each pointer and its count are one slice, which outlives the call; the rows are exclusive, and
    // the call writes its whole answer.
    unsafe {
        answer_of(|answer| {
            probe_segments(
                answer,
                track.settings,
                track.samples,
                track.key,
                track.confidence,
                track.centres.as_ptr(),
                track.centres.len(),
                track.values.as_ptr(),
                track.values.len(),
                estimates.middles.as_mut_ptr(),
                estimates.middles.len(),
                estimates.numbers.as_mut_ptr(),
                estimates.numbers.len(),
                estimates.certainties.as_mut_ptr(),
                estimates.certainties.len(),
                estimates.shapeless.as_mut_ptr(),
                estimates.shapeless.len(),
                rows.starts.as_mut_ptr(),
                rows.starts.len(),
                rows.ends.as_mut_ptr(),
                rows.ends.len(),
                rows.keys.as_mut_ptr(),
                rows.keys.len(),
                rows.confidences.as_mut_ptr(),
                rows.confidences.len(),
                rows.counts.as_mut_ptr(),
                rows.counts.len(),
            )
        })
    }
}
