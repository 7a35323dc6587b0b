//! The leaves of the library, exported for the comparison and the speed table; no product calls them.
pub mod segments;
pub mod sheet;

use ulyptesh::Chroma;
use ulyptesh::calls::answer_of;

unsafe extern "C" {
    pub safe fn probe_square_root(x: f32) -> f32;
    pub safe fn probe_floor(x: f32) -> f32;
    pub safe fn probe_narrow(x: f64) -> f32;
    pub safe fn probe_widen(x: f32) -> f64;

    pub safe fn probe_is_finite_f32(x: f32) -> bool;
    pub safe fn probe_is_finite_f64(x: f64) -> bool;

    pub safe fn probe_larger_f32(a: f32, b: f32) -> f32;
    pub safe fn probe_larger_f64(a: f64, b: f64) -> f64;
    pub safe fn probe_smaller_f32(a: f32, b: f32) -> f32;
    pub safe fn probe_smaller_f64(a: f64, b: f64) -> f64;

    pub safe fn probe_order_key_f32(x: f32) -> u32;
    pub safe fn probe_order_key_f64(x: f64) -> u64;
    pub safe fn probe_total_before_f32(a: f32, b: f32) -> bool;
    pub safe fn probe_total_before_f64(a: f64, b: f64) -> bool;

    pub safe fn probe_key_number(number: u32) -> u32;
    pub safe fn probe_same_key(a: u32, b: u32) -> bool;
    pub safe fn probe_are_relative_keys(a: u32, b: u32) -> bool;

    pub safe fn probe_thousandths(x: f32) -> u64;
    pub safe fn probe_milliseconds(x: f64) -> u64;

    fn probe_whiten(answer: *mut Chroma, chroma: &Chroma) -> *mut Chroma;
    fn probe_normalize(answer: *mut Chroma, chroma: &Chroma) -> *mut Chroma;
    fn probe_shift(answer: *mut Chroma, chroma: &Chroma, offset: f32) -> *mut Chroma;
    fn probe_onset_weight(energies: *const f32, lent: usize, place: usize) -> f32;
    fn probe_tuning(frames: *const Chroma, lent: usize, count: usize) -> f32;
    fn probe_median(work: *mut f32, lent: usize, count: usize) -> f32;
    fn probe_weighted_medians(
        answer: *mut Chroma,
        frames: *const Chroma,
        lent_frames: usize,
        energies: *const f32,
        lent_energies: usize,
        work: *mut f32,
        lent_work: usize,
        count: usize,
    ) -> *mut Chroma;
}

/// The square roots of the numbers above 0, the others as they are.
pub fn whiten(chroma: &Chroma) -> Chroma {
    // SAFETY: the call writes its whole answer.
    unsafe { answer_of(|answer| probe_whiten(answer, chroma)) }
}

/// The chroma divided by its sum, where that is above 2^-23.
pub fn normalize(chroma: &Chroma) -> Chroma {
    // SAFETY: the call writes its whole answer.
    unsafe { answer_of(|answer| probe_normalize(answer, chroma)) }
}

/// The onset weight of the frame at a place; 0 behind the last one.
pub fn onset_weight(energies: &[f32], place: usize) -> f32 {
    // SAFETY: pointer and count are one slice, which outlives the call.
    unsafe { probe_onset_weight(energies.as_ptr(), energies.len(), place) }
}

/// The tuning of the first `count` frames; 0 where there are fewer.
pub fn tuning(frames: &[Chroma], count: usize) -> f32 {
    // SAFETY: pointer and count are one slice of rows, which outlives the call.
    unsafe { probe_tuning(frames.as_ptr(), frames.len(), count) }
}

/// The chroma shifted up by an offset in bins.
pub fn shift(chroma: &Chroma, offset: f32) -> Chroma {
    // SAFETY: the call writes its whole answer.
    unsafe { answer_of(|answer| probe_shift(answer, chroma, offset)) }
}

/// The median of the first `count` numbers, which are zero afterwards; 0 where there are none or fewer.
pub fn median(work: &mut [f32], count: usize) -> f32 {
    // SAFETY: pointer and count are one exclusive slice, which outlives the call.
    unsafe { probe_median(work.as_mut_ptr(), work.len(), count) }
}

/// The medians of the bins over the first `count` frames, each weighted by onset; zeros where there are none or fewer.
pub fn weighted_medians(frames: &[Chroma], energies: &[f32], work: &mut [f32], count: usize) -> Chroma {
    let (frames_at, energies_at, work_at) = (frames.as_ptr(), energies.as_ptr(), work.as_mut_ptr());
    let (rows, numbers, room) = (frames.len(), energies.len(), work.len());
    // SAFETY: each pointer and count are one slice, which outlives the call, the last exclusive; the call writes its whole answer.
    unsafe {
        answer_of(|answer| {
            probe_weighted_medians(answer, frames_at, rows, energies_at, numbers, work_at, room, count)
        })
    }
}
