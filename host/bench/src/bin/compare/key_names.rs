//! Names and codes of keys, beside the request's words: every lent byte, written or not.
use crate::groups::{Groups, compared_exactly};
use ulyptesh::Key;
use ulyptesh::calls::{TOO_FEW_BYTES, UNWRITABLE, Written, write_key_name};

/// From C upward.
const TONICS: [&str; 12] = ["C", "C#", "D", "D#", "E", "F", "F#", "G", "G#", "A", "A#", "B"];

/// The major keys, then the minor ones.
const MODES: [&str; 2] = ["major", "minor"];

/// The codes of the Camelot wheel by key number, as the wheel is printed: majors from C upward, then minors.
#[rustfmt::skip]
pub const CAMELOT: [&str; 24] = [
    "8B", "3B", "10B", "5B", "12B", "7B", "2B", "9B", "4B", "11B", "6B", "1B",
    "5A", "12A", "7A", "2A", "9A", "4A", "11A", "6A", "1A", "8A", "3A", "10A",
];

/// The Open Key codes by key number, likewise: d for major, m for minor.
#[rustfmt::skip]
pub const OPEN_KEY: [&str; 24] = [
    "1d", "8d", "3d", "10d", "5d", "12d", "7d", "2d", "9d", "4d", "11d", "6d",
    "10m", "5m", "12m", "7m", "2m", "9m", "4m", "11m", "6m", "1m", "8m", "3m",
];

/// Numbers that no key has.
const NO_KEYS: [u32; 5] = [24, 25, 255, 256, u32::MAX];

/// Room up to this is lent; no name is longer.
const MOST_LENT: usize = 12;

/// Lent bytes with four that are not lent behind them.
type Bytes = [u8; MOST_LENT + 4];

/// A call's answer and what it left in the bytes.
#[derive(Debug, PartialEq)]
struct Named {
    answer: Written,
    bytes: Bytes,
}

compared_exactly!(Named);

/// Bytes that no name has, each place another.
fn untouched() -> Bytes {
    std::array::from_fn(|place| 0xa0 + place as u8)
}

fn ours((number, lent): (u32, usize)) -> Named {
    let mut bytes = untouched();
    let answer = write_key_name(number, &mut bytes[..lent]);
    Named { answer, bytes }
}

fn refused(refusal: u32) -> Named {
    Named { answer: Written { refusal, length: 0 }, bytes: untouched() }
}

/// Tonic and mode; none where no key has the number.
pub fn name(number: u32) -> Option<String> {
    let (mode, tonic) = (number as usize / TONICS.len(), number as usize % TONICS.len());
    Some(format!("{} {}", TONICS[tonic], MODES.get(mode)?))
}

/// The name at the front of the bytes, or the refusal.
fn wanted((number, lent): (u32, usize)) -> Named {
    let Some(name) = name(number) else {
        return refused(UNWRITABLE);
    };
    if lent < name.len() {
        return refused(TOO_FEW_BYTES);
    }
    let mut bytes = untouched();
    bytes[..name.len()].copy_from_slice(name.as_bytes());
    Named { answer: Written { refusal: 0, length: name.len() }, bytes }
}

/// Each number with room of every length.
fn with_every_room(numbers: impl Iterator<Item = u32>) -> impl Iterator<Item = (u32, usize)> {
    numbers.flat_map(|number| (0..=MOST_LENT).map(move |lent| (number, lent)))
}

/// The name with the code from the wheel.
fn name_and_code(number: u32) -> Option<(String, String)> {
    Some((name(number)?, CAMELOT.get(number as usize)?.to_string()))
}

fn our_name_and_code(number: u32) -> Option<(String, String)> {
    Key::try_from(number).ok().map(|key| (key.to_string(), key.camelot()))
}

pub fn compare(groups: &mut Groups) {
    groups.group("key names", with_every_room(0..24), ours, wanted);
    groups.group("names of no key", with_every_room(NO_KEYS.into_iter()), ours, wanted);
    groups.group("Camelot codes", (0..24).chain(NO_KEYS), our_name_and_code, name_and_code);
}
