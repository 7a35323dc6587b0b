//! The calls on a chroma: the 24 scores, and the key.
use super::by_pointer::answer_of;

/// The refusal for a chroma not of 12 numbers, or room for fewer than 24 scores.
pub const WRONG_LENGTH: u32 = 18;

/// The answer to a call for scores.
#[repr(C)]
#[derive(Debug, Clone, Copy, PartialEq, Eq)]
pub struct ScoresResult {
    /// 0, or the number of a refusal.
    pub refusal: u32,
    /// 1 where the chroma has no shape, else 0.
    pub shapeless: u32,
}

/// The answer to a call for the key; refused, it has key 24 and zeros.
#[repr(C)]
#[derive(Debug, Clone, Copy, PartialEq)]
pub struct KeyResult {
    /// 0, or the number of a refusal.
    pub refusal: u32,
    /// The key that is told.
    pub key: u32,
    /// The highest score, which is another key's where the relative key is taken; -infinity where none is a number.
    pub best: f32,
    /// The second score.
    pub second: f32,
    /// From 0 to 1; a NaN where no score is a number.
    pub confidence: f32,
    /// 1 where the chroma has no shape, else 0.
    pub shapeless: u32,
}

unsafe extern "C" {
    fn ulyptesh_scores(chroma: *const f32, count: usize, room: *mut f32, places: usize) -> ScoresResult;
    fn ulyptesh_key(answer: *mut KeyResult, chroma: *const f32, count: usize) -> *mut KeyResult;
}

/// Writes the 24 scores to the front of `room`; the places behind them stay.
pub fn scores(chroma: &[f32], room: &mut [f32]) -> ScoresResult {
    // SAFETY: each pointer and count are one slice, which outlives the call; the room is exclusive.
    unsafe { ulyptesh_scores(chroma.as_ptr(), chroma.len(), room.as_mut_ptr(), room.len()) }
}

/// The key of a chroma.
pub fn key(chroma: &[f32]) -> KeyResult {
    // SAFETY: pointer and count are one slice, which outlives the call; the call writes its whole answer.
    unsafe { answer_of(|answer| ulyptesh_key(answer, chroma.as_ptr(), chroma.len())) }
}
