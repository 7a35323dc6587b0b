//! Key names, written into lent bytes.
use super::written::Written;

/// The longest name, "C# major", has this many bytes.
pub const LONGEST_NAME: usize = 8;

unsafe extern "C" {
    fn ulyptesh_write_key_name(number: u32, bytes: *mut u8, count: usize) -> Written;
}

/// Writes the name of a key to the front of the bytes; those behind it stay.
pub fn write_key_name(number: u32, bytes: &mut [u8]) -> Written {
    // SAFETY: pointer and count are one exclusive slice, which outlives the call.
    unsafe { ulyptesh_write_key_name(number, bytes.as_mut_ptr(), bytes.len()) }
}
