//! The ways in which keys are written.
use crate::keys::{Key, Mode, Tonic};
use std::error::Error;
use std::fmt;
use std::str::FromStr;

/// The place of C major on the Camelot wheel.
const C_MAJOR_PLACE: u8 = 8;

/// The wheel has so many places.
const PLACES: u8 = 12;

/// A fifth up is one place further on.
const FIFTH: u8 = 7;

/// A minor key stands where the major key three semitones up does.
const TO_RELATIVE_MAJOR: u8 = 3;

/// Tonics from C upward, with flats.
const FLATS: [&str; 12] = ["C", "Db", "D", "Eb", "E", "F", "Gb", "G", "Ab", "A", "Bb", "B"];

/// A way in which keys are written.
#[non_exhaustive]
#[derive(Debug, Clone, Copy, PartialEq, Eq, Hash)]
pub enum Notation {
    /// "C# minor", the key's name.
    Sharps,
    /// "Db minor".
    Flats,
    /// "12A".
    Camelot,
    /// "5m".
    OpenKey,
}

impl Notation {
    /// All of them.
    pub const ALL: &'static [Self] = &[Self::Sharps, Self::Flats, Self::Camelot, Self::OpenKey];

    /// The word for it, as the tool takes it.
    pub fn word(self) -> &'static str {
        match self {
            Self::Sharps => "sharps",
            Self::Flats => "flats",
            Self::Camelot => "camelot",
            Self::OpenKey => "open-key",
        }
    }
}

/// The error for a word that is no notation.
#[derive(Debug, Clone, Copy, PartialEq, Eq)]
pub struct NoSuchNotation;

impl fmt::Display for NoSuchNotation {
    fn fmt(&self, out: &mut fmt::Formatter<'_>) -> fmt::Result {
        let words: Vec<&str> = Notation::ALL.iter().map(|notation| notation.word()).collect();
        write!(out, "notations are {}", words.join(", "))
    }
}

impl Error for NoSuchNotation {}

impl fmt::Display for Notation {
    fn fmt(&self, out: &mut fmt::Formatter<'_>) -> fmt::Result {
        out.pad(self.word())
    }
}

impl FromStr for Notation {
    type Err = NoSuchNotation;

    fn from_str(word: &str) -> Result<Self, NoSuchNotation> {
        Self::ALL.iter().copied().find(|notation| notation.word() == word).ok_or(NoSuchNotation)
    }
}

impl Key {
    /// The place on the Camelot wheel, 1 to 12.
    pub fn camelot_number(self) -> u8 {
        let tonic = self.tonic() as u8;
        let major = match self.mode() {
            Mode::Major => tonic,
            Mode::Minor => tonic + TO_RELATIVE_MAJOR,
        };
        (C_MAJOR_PLACE - 1 + FIFTH * major) % PLACES + 1
    }

    /// The Camelot code: 8B for C major, 5A for C minor.
    pub fn camelot(self) -> String {
        format!("{}{}", self.camelot_number(), self.of_mode('B', 'A'))
    }

    /// The Open Key code: 1d for C major, 10m for C minor.
    pub fn open_key(self) -> String {
        let place = (self.camelot_number() + PLACES - C_MAJOR_PLACE) % PLACES + 1;
        format!("{place}{}", self.of_mode('d', 'm'))
    }

    /// The name with flats, such as "Db minor".
    pub fn flat_name(self) -> String {
        format!("{} {}", FLATS[self.tonic() as usize], self.mode())
    }

    /// The tonic with an m behind it for minor, as "C#m", with sharps and with flats.
    fn short_names(self) -> [String; 2] {
        let (sharp, flat, minor) = (self.tonic(), FLATS[self.tonic() as usize], self.of_mode("", "m"));
        [format!("{sharp}{minor}"), format!("{flat}{minor}")]
    }

    /// The key in this notation.
    pub fn in_notation(self, notation: Notation) -> String {
        match notation {
            Notation::Sharps => self.name(),
            Notation::Flats => self.flat_name(),
            Notation::Camelot => self.camelot(),
            Notation::OpenKey => self.open_key(),
        }
    }

    fn of_mode<A>(self, major: A, minor: A) -> A {
        match self.mode() {
            Mode::Major => major,
            Mode::Minor => minor,
        }
    }
}

/// The error for text that is no key in any notation.
#[derive(Debug, Clone, Copy, PartialEq, Eq)]
pub struct UnknownKey;

impl fmt::Display for UnknownKey {
    fn fmt(&self, out: &mut fmt::Formatter<'_>) -> fmt::Result {
        let shown = Key::new(Tonic::CSharp, Mode::Minor);
        let shown: Vec<String> = Notation::ALL.iter().map(|notation| shown.in_notation(*notation)).collect();
        write!(out, "not a key; one key in each notation: {}", shown.join(", "))
    }
}

impl Error for UnknownKey {}

/// A key in any notation or by its short name, as "C#m": in large or small letters, with blanks around it or a zero
/// before it.
impl FromStr for Key {
    type Err = UnknownKey;

    fn from_str(text: &str) -> Result<Self, UnknownKey> {
        let text = text.trim();
        let code = text.strip_prefix('0').filter(|code| code.starts_with(|c| ('1'..='9').contains(&c)));
        let text = code.unwrap_or(text);
        let reads = |key: &Self| {
            let written = Notation::ALL.iter().map(|notation| key.in_notation(*notation));
            written.chain(key.short_names()).any(|written| written.eq_ignore_ascii_case(text))
        };
        Self::ALL.into_iter().find(reads).ok_or(UnknownKey)
    }
}

#[cfg(test)]
mod tests {
    use super::*;

    /// All ways in which a key is written.
    fn written(key: Key) -> impl Iterator<Item = String> {
        let notations = Notation::ALL.iter().map(move |notation| key.in_notation(*notation));
        notations
            .chain(key.short_names())
            .flat_map(|written| [written.to_lowercase(), format!(" {written} ")])
    }

    #[test]
    fn every_way_of_writing_reads_back() {
        for (key, written) in Key::ALL.into_iter().flat_map(|key| written(key).map(move |text| (key, text))) {
            assert_eq!(written.parse(), Ok(key), "{written}");
        }
    }

    #[test]
    fn codes_may_have_a_zero_before_them() {
        assert_eq!("08A".parse::<Key>(), "A minor".parse());
        assert_eq!("01d".parse::<Key>(), "C".parse());
    }

    #[test]
    fn other_text_is_no_key() {
        for text in ["", "0", "H major", "0A", "13A", "13m", "008A", "1c", "C  major", "Cmm", "C#b"] {
            assert_eq!(text.parse::<Key>(), Err(UnknownKey), "{text}");
        }
    }

    #[test]
    fn notations_are_known_by_their_words() {
        for notation in Notation::ALL {
            assert_eq!(notation.to_string().parse(), Ok(*notation));
        }
        assert_eq!("Camelot".parse::<Notation>(), Err(NoSuchNotation));
    }
}
