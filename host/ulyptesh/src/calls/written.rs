//! What the library answers where it writes into lent bytes.

/// The refusal for a value that can't be written: no such key, or an analysis that breaks a card rule.
pub const UNWRITABLE: u32 = 11;

/// The refusal for fewer bytes than are needed.
pub const TOO_FEW_BYTES: u32 = 12;

/// The library's answer: 0 and how many bytes were written, or a refusal and 0.
#[repr(C)]
#[derive(Debug, Clone, Copy, PartialEq, Eq)]
pub struct Written {
    /// 0, or the number of a refusal.
    pub refusal: u32,
    /// How many bytes were written.
    pub length: usize,
}
