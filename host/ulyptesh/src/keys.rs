//! The 24 keys: tonic, mode, number and name.
use crate::calls::{KEYS, LONGEST_NAME, PITCH_CLASSES, write_key_name};
use std::error::Error;
use std::fmt;

/// The tonics from C upward, as names of keys begin with them.
const TONICS: [&str; PITCH_CLASSES] = ["C", "C#", "D", "D#", "E", "F", "F#", "G", "G#", "A", "A#", "B"];

/// The pitch class that a key rests on.
#[allow(missing_docs, reason = "the names say it")]
#[derive(Debug, Clone, Copy, PartialEq, Eq, Hash, PartialOrd, Ord)]
pub enum Tonic {
    C,
    CSharp,
    D,
    DSharp,
    E,
    F,
    FSharp,
    G,
    GSharp,
    A,
    ASharp,
    B,
}

impl fmt::Display for Tonic {
    fn fmt(&self, out: &mut fmt::Formatter<'_>) -> fmt::Result {
        out.pad(TONICS[*self as usize])
    }
}

impl Tonic {
    /// All of them, from C upward.
    #[rustfmt::skip]
    pub const ALL: [Self; PITCH_CLASSES] = [
        Self::C, Self::CSharp, Self::D, Self::DSharp, Self::E, Self::F,
        Self::FSharp, Self::G, Self::GSharp, Self::A, Self::ASharp, Self::B,
    ];
}

/// Whether a key is a major or a minor one.
#[allow(missing_docs, reason = "the names say it")]
#[derive(Debug, Clone, Copy, PartialEq, Eq, Hash, PartialOrd, Ord)]
pub enum Mode {
    Major,
    Minor,
}

impl fmt::Display for Mode {
    fn fmt(&self, out: &mut fmt::Formatter<'_>) -> fmt::Result {
        out.pad(if *self == Self::Major { "major" } else { "minor" })
    }
}

/// One of the 24 keys; in order, the major ones from C upward, then the minor ones.
///
/// ```
/// use ulyptesh::{Key, Mode, Tonic};
/// let key: Key = "12A".parse().unwrap();
/// assert_eq!(key, Key::new(Tonic::CSharp, Mode::Minor));
/// assert_eq!(key.to_string(), "C# minor");
/// ```
#[derive(Clone, Copy, PartialEq, Eq, Hash, PartialOrd, Ord)]
pub struct Key(u8);

/// The error for a number that no key has.
#[non_exhaustive]
#[derive(Debug, Clone, Copy, PartialEq, Eq)]
pub struct NoSuchKey {
    /// The number.
    pub number: u32,
}

impl fmt::Display for NoSuchKey {
    fn fmt(&self, out: &mut fmt::Formatter<'_>) -> fmt::Result {
        write!(out, "{} is no key number: keys are 0 to 23", self.number)
    }
}

impl Error for NoSuchKey {}

impl Key {
    /// All of them, by number.
    pub const ALL: [Self; KEYS] = {
        let mut all = [Self(0); KEYS];
        let mut number = 0;
        while number < KEYS {
            all[number] = Self(number as u8);
            number += 1;
        }
        all
    };

    /// The key on this tonic in this mode.
    pub const fn new(tonic: Tonic, mode: Mode) -> Self {
        match mode {
            Mode::Major => Self(tonic as u8),
            Mode::Minor => Self(PITCH_CLASSES as u8 + tonic as u8),
        }
    }

    /// The number: 0 to 11 for C major to B major, 12 to 23 for C minor to B minor.
    pub const fn number(self) -> u8 {
        self.0
    }

    /// The pitch class that it rests on.
    pub const fn tonic(self) -> Tonic {
        Tonic::ALL[self.0 as usize % PITCH_CLASSES]
    }

    /// Major or minor.
    pub const fn mode(self) -> Mode {
        if (self.0 as usize) < PITCH_CLASSES { Mode::Major } else { Mode::Minor }
    }

    /// The name, such as "C# minor".
    pub fn name(self) -> String {
        let mut bytes = [0; LONGEST_NAME];
        let written = write_key_name(self.0.into(), &mut bytes);
        assert_eq!(written.refusal, 0, "keys 0 to 23 have names");
        String::from_utf8_lossy(&bytes[..written.length]).into_owned()
    }
}

impl TryFrom<u32> for Key {
    type Error = NoSuchKey;

    fn try_from(number: u32) -> Result<Self, NoSuchKey> {
        Self::ALL.get(number as usize).copied().ok_or(NoSuchKey { number })
    }
}

impl TryFrom<u8> for Key {
    type Error = NoSuchKey;

    fn try_from(number: u8) -> Result<Self, NoSuchKey> {
        Self::try_from(u32::from(number))
    }
}

impl From<Key> for u8 {
    fn from(key: Key) -> Self {
        key.0
    }
}

/// As its name, so that what holds keys can be read.
impl fmt::Debug for Key {
    fn fmt(&self, out: &mut fmt::Formatter<'_>) -> fmt::Result {
        fmt::Display::fmt(self, out)
    }
}

impl fmt::Display for Key {
    fn fmt(&self, out: &mut fmt::Formatter<'_>) -> fmt::Result {
        out.pad(&self.name())
    }
}

#[cfg(test)]
mod tests {
    use super::*;

    #[test]
    fn keys_are_their_tonic_and_mode() {
        for key in Key::ALL {
            assert_eq!(Key::new(key.tonic(), key.mode()), key);
            assert_eq!(Key::try_from(key.number()), Ok(key));
        }
        assert!(Key::ALL.is_sorted());
    }

    #[test]
    fn names_are_of_tonic_and_mode() {
        for key in Key::ALL {
            assert_eq!(key.name(), format!("{} {}", key.tonic(), key.mode()));
        }
    }

    #[test]
    fn no_key_has_another_number() {
        for number in [24, 255, 256, u32::MAX] {
            assert_eq!(Key::try_from(number), Err(NoSuchKey { number }));
        }
    }
}
