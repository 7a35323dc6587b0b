//! The library's calls one by one, over memory that the caller lends.
//!
//! A slice crosses the C interface as two arguments, pointer and count. Each call here lends Rust slices for its own
//! length; the library keeps no pointer, allocates nothing and has no state. What crosses is as `include/ulyptesh.h`
//! has it, so the structs of settings, heads and answers change with [`ABI`].
mod analysis;
mod by_pointer;
mod cards;
mod chroma;
mod frames;
mod interface;
mod names;
mod packed_cards;
mod rows;
mod sets;
mod sheet;
mod written;

pub use analysis::{AnalyseResult, analyse};
#[doc(hidden)] // for the leaves of the comparison, which answer in the same way
pub use by_pointer::answer_of;
pub use cards::{CardFields, LONGEST_CARD, MOST_CARD_SEGMENTS, SHORTEST_CARD, write_card};
pub use chroma::{KeyResult, ScoresResult, WRONG_LENGTH, key, scores};
pub use frames::{FramesResult, frames};
pub use interface::{ABI, abi};
pub use names::{LONGEST_NAME, write_key_name};
pub use packed_cards::{
    CARD_BROKEN, CARD_NEEDLESS_LAYOUT, CARD_UNKNOWN_LAYOUT, CARD_WRONG_LENGTH, CardRead, PackedFields,
    TOO_FEW_CARD_ROWS, read_card, write_packed_card,
};
pub use rows::{Buffers, EstimateRows, FrameRows, SegmentRows, frame_positions, windows};
pub use sets::{
    CARD_TOO_LONG, NO_SUCH_CARD, PLACE_BYTES, SET_BYTES, SET_FULL, SET_NOT_TRUE, SET_PLACES, SUMMARY_CARDS,
    SUMMARY_NUMBERS, SUMMARY_WITHOUT_KEY, SetChange, add_card, remove_card,
};
pub use sheet::{Sheet, SheetHead};
pub use written::{TOO_FEW_BYTES, UNWRITABLE, Written};

/// A chroma has a number for each pitch class, from C upward.
pub const PITCH_CLASSES: usize = 12;

/// The keys: 12 major ones from C upward, then 12 minor ones.
pub const KEYS: usize = 24;

/// The number of a key that is missing.
pub const NO_KEY: u32 = 24;

/// The longest track, in seconds.
pub const LONGEST_TRACK_SECONDS: usize = 86_400;
