//! Why a track was not analysed, a card not read or a set not changed, in words and by the library's number.
use crate::calls::{
    CARD_BROKEN, CARD_NEEDLESS_LAYOUT, CARD_TOO_LONG, CARD_UNKNOWN_LAYOUT, CARD_WRONG_LENGTH, LONGEST_CARD,
    LONGEST_TRACK_SECONDS, NO_SUCH_CARD, PLACE_BYTES, SET_FULL, SET_NOT_TRUE, SET_PLACES, SHORTEST_CARD,
    TOO_FEW_CARD_ROWS,
};
use crate::card::layout_of;
use crate::settings::{Engine, Settings};
use std::error::Error;
use std::fmt;

/// A refusal, by what was wrong.
#[non_exhaustive]
#[derive(Debug, Clone, Copy, PartialEq)]
pub enum Refusal {
    /// With these settings every track is answered without a key.
    #[non_exhaustive]
    NothingAnalysed {
        /// What is wrong with them.
        why: &'static str,
    },
    /// 1: the rate is above 192,000.
    #[non_exhaustive]
    RateTooHigh {
        /// The rate.
        rate: u32,
    },
    /// 2: the frame size is above 65,536, or the hop above 1,048,576.
    #[non_exhaustive]
    FrameOrHopTooLarge {
        /// The frame size.
        frame_size: usize,
        /// The hop.
        hop_size: usize,
    },
    /// 3: one of the float settings is not finite.
    #[non_exhaustive]
    SettingNotFinite {
        /// The setting.
        name: &'static str,
    },
    /// 4: there are more samples than 86,400 times the rate.
    #[non_exhaustive]
    TrackTooLong {
        /// How many samples there are.
        samples: usize,
        /// The rate.
        rate: u32,
    },
    /// 5: the local hop is below half a second.
    #[non_exhaustive]
    LocalHopTooShort {
        /// The local hop.
        seconds: f32,
    },
    /// 6: the sheet was made for another rate, other notes or another frame size.
    SheetOfAnotherCall,
    /// 7: the sheet is not well formed.
    SheetNotWellFormed,
    /// 8: fewer rows are lent than the track needs; of an [`Analyzer`](crate::Analyzer), memory is too little for them.
    TooLittleRoom,
    /// 9: a loud frame's energy or chroma is not finite.
    #[non_exhaustive]
    FrameNotFinite {
        /// The frame's position, from 0.
        position: u64,
    },
    /// 13: the engine is neither 0 nor 1. It is judged after 3, before settings with which nothing is analysed.
    #[non_exhaustive]
    UnknownEngine {
        /// The engine.
        engine: Engine,
    },
    /// 20: a card of fewer than 7 bytes or, where the layout is known, not of as many as its segment count gives.
    #[non_exhaustive]
    CardWrongLength {
        /// How many bytes there are.
        length: usize,
    },
    /// 21: the card's layout is neither 1 nor 2.
    #[non_exhaustive]
    CardUnknownLayout {
        /// The layout.
        layout: u8,
    },
    /// 22: a card rule is broken, or a bit that fills the card's last byte is set.
    CardBroken,
    /// 23: the card is in layout 2, and layout 1 would have held it.
    CardNeedlessLayout,
    /// 24: fewer rows are lent than the card has segments.
    TooFewCardRows,
    /// 30: the card is longer than a place of a set, 512 bytes.
    #[non_exhaustive]
    CardTooLong {
        /// How many bytes it has.
        length: usize,
    },
    /// 31: no place of the set is free.
    SetFull,
    /// 32: no place of the set has a card of these bytes.
    NoSuchCard,
    /// 33: the set or its summary has another size, a place is neither free nor a card with zeros behind it, or the
    /// summary is not what the set's cards give.
    SetNotTrue,
    /// A number that this crate does not know.
    #[non_exhaustive]
    Unknown {
        /// The library's number.
        number: u32,
    },
}

/// The first float setting that is not finite.
fn not_finite(settings: &Settings) -> &'static str {
    let named = [
        ("local window", settings.local_window_seconds),
        ("local hop", settings.local_hop_seconds),
        ("coverage threshold", settings.alternate_coverage_threshold),
        ("confidence threshold", settings.segment_confidence_threshold),
    ];
    named.into_iter().find(|(_, value)| !value.is_finite()).map_or("minimum segment", |(name, _)| name)
}

/// Why nothing is analysed with settings that the library takes.
fn nothing_because(settings: &Settings) -> &'static str {
    let reasons = [
        (settings.rate == 0, "the rate is 0"),
        (settings.frame_size < 32, "a frame has fewer than 32 samples"),
        (settings.hop_size == 0, "the hop is 0"),
        (settings.minimum_midi_note > settings.maximum_midi_note, "the lowest note is above the highest"),
        (settings.local_window_seconds <= 0.0, "the local window is not above 0"),
    ];
    reasons.into_iter().find(|reason| reason.0).map_or("the local hop is not above 0", |reason| reason.1)
}

/// Why no card has this length.
fn wrong_length(length: usize) -> String {
    match length {
        ..SHORTEST_CARD => format!("a card has at least {SHORTEST_CARD} bytes, and there are {length}"),
        SHORTEST_CARD..=LONGEST_CARD => {
            format!("{length} bytes are not as many as the card's segment count gives")
        }
        _ => format!("a card has at most {LONGEST_CARD} bytes, and there are more"),
    }
}

/// Why no set takes a card of this length.
fn too_long(length: usize) -> String {
    format!("the card has {length} bytes, and a set takes cards of up to {PLACE_BYTES}")
}

/// Why a set is not changed at all.
const NOT_TRUE: &str =
    "the set has another size or holds what is no card, or its summary is not that of its cards";

impl Refusal {
    /// What the library's number means for this call; the position is a frame's. 0 stands for settings with which
    /// nothing is analysed.
    pub fn new(number: u32, position: u64, settings: &Settings, samples: usize) -> Self {
        let Settings { rate, frame_size, hop_size, local_hop_seconds: seconds, engine, .. } = *settings;
        match number {
            0 => Self::NothingAnalysed { why: nothing_because(settings) },
            1 => Self::RateTooHigh { rate },
            2 => Self::FrameOrHopTooLarge { frame_size, hop_size },
            3 => Self::SettingNotFinite { name: not_finite(settings) },
            4 => Self::TrackTooLong { samples, rate },
            5 => Self::LocalHopTooShort { seconds },
            6 => Self::SheetOfAnotherCall,
            7 => Self::SheetNotWellFormed,
            8 => Self::TooLittleRoom,
            9 => Self::FrameNotFinite { position },
            13 => Self::UnknownEngine { engine },
            _ => Self::Unknown { number },
        }
    }

    /// What the library's number means for these bytes, read as a card.
    pub fn of_card(number: u32, bytes: &[u8]) -> Self {
        match number {
            CARD_WRONG_LENGTH => Self::CardWrongLength { length: bytes.len() },
            CARD_UNKNOWN_LAYOUT => Self::CardUnknownLayout { layout: layout_of(bytes) },
            CARD_BROKEN => Self::CardBroken,
            CARD_NEEDLESS_LAYOUT => Self::CardNeedlessLayout,
            TOO_FEW_CARD_ROWS => Self::TooFewCardRows,
            _ => Self::Unknown { number },
        }
    }

    /// What the library's number means for these bytes, as a card to put into a set or to take out.
    pub fn of_set(number: u32, bytes: &[u8]) -> Self {
        match number {
            CARD_TOO_LONG => Self::CardTooLong { length: bytes.len() },
            SET_FULL => Self::SetFull,
            NO_SUCH_CARD => Self::NoSuchCard,
            SET_NOT_TRUE => Self::SetNotTrue,
            _ => Self::of_card(number, bytes),
        }
    }

    /// The library's number; 0 for settings that it takes and with which it analyses nothing.
    pub fn number(&self) -> u32 {
        match *self {
            Self::NothingAnalysed { .. } => 0,
            Self::RateTooHigh { .. } => 1,
            Self::FrameOrHopTooLarge { .. } => 2,
            Self::SettingNotFinite { .. } => 3,
            Self::TrackTooLong { .. } => 4,
            Self::LocalHopTooShort { .. } => 5,
            Self::SheetOfAnotherCall => 6,
            Self::SheetNotWellFormed => 7,
            Self::TooLittleRoom => 8,
            Self::FrameNotFinite { .. } => 9,
            Self::UnknownEngine { .. } => 13,
            Self::CardWrongLength { .. } => CARD_WRONG_LENGTH,
            Self::CardUnknownLayout { .. } => CARD_UNKNOWN_LAYOUT,
            Self::CardBroken => CARD_BROKEN,
            Self::CardNeedlessLayout => CARD_NEEDLESS_LAYOUT,
            Self::TooFewCardRows => TOO_FEW_CARD_ROWS,
            Self::CardTooLong { .. } => CARD_TOO_LONG,
            Self::SetFull => SET_FULL,
            Self::NoSuchCard => NO_SUCH_CARD,
            Self::SetNotTrue => SET_NOT_TRUE,
            Self::Unknown { number } => number,
        }
    }

    fn words(&self) -> String {
        match self {
            Self::NothingAnalysed { why } => format!("no track can be analysed: {why}"),
            Self::RateTooHigh { rate } => format!("the rate of {rate} Hz is above 192000"),
            Self::FrameOrHopTooLarge { frame_size: 65_537.., .. } => {
                "a frame has more than 65536 samples".into()
            }
            Self::FrameOrHopTooLarge { .. } => "the hop is above 1048576 samples".into(),
            Self::SettingNotFinite { name } => format!("the {name} is not finite"),
            Self::TrackTooLong { samples, rate } => {
                let hours = LONGEST_TRACK_SECONDS / 3_600;
                format!("{samples} samples at {rate} Hz are more than {hours} hours")
            }
            Self::LocalHopTooShort { seconds } => format!("the local hop of {seconds} s is below 0.5 s"),
            Self::SheetOfAnotherCall => "the table sheet was made for another call".into(),
            Self::SheetNotWellFormed => "the table sheet is not well formed".into(),
            Self::TooLittleRoom => {
                "the track needs more rows than were lent, or than there is memory for".into()
            }
            Self::FrameNotFinite { position } => {
                format!("the frame at position {position} is loud, and its energy or chroma is not finite")
            }
            Self::UnknownEngine { engine: Engine(number) } => {
                format!("the engine, {number}, is neither 0 nor 1")
            }
            Self::CardWrongLength { length } => wrong_length(*length),
            Self::CardUnknownLayout { layout } => format!("the card's layout, {layout}, is not known"),
            Self::CardBroken => "the card breaks a card rule, or a bit behind its last field is set".into(),
            Self::CardNeedlessLayout => "the card is in layout 2, and layout 1 would have held it".into(),
            Self::TooFewCardRows => "fewer rows were lent than the card has segments".into(),
            Self::CardTooLong { length } => too_long(*length),
            Self::SetFull => format!("the set is full: it has {SET_PLACES} cards"),
            Self::NoSuchCard => "the set has no such card".into(),
            Self::SetNotTrue => NOT_TRUE.into(),
            Self::Unknown { .. } => "refused for a reason unknown here".into(),
        }
    }
}

impl fmt::Display for Refusal {
    fn fmt(&self, out: &mut fmt::Formatter<'_>) -> fmt::Result {
        match self.number() {
            0 => out.write_str(&self.words()),
            number => write!(out, "{} (refusal {number})", self.words()),
        }
    }
}

impl Error for Refusal {}

#[cfg(test)]
mod tests {
    use super::*;

    /// A refusal tells its number, in its words too, and whether that is known here.
    fn tells(refusal: Refusal, number: u32, known: bool) {
        assert_eq!(refusal.number(), number);
        assert!(refusal.to_string().ends_with(&format!(" (refusal {number})")), "{refusal}");
        assert_eq!(!matches!(refusal, Refusal::Unknown { .. }), known, "{refusal}");
    }

    #[test]
    fn refusals_of_tracks_tell_their_number() {
        for number in (1..=9).chain([13, 99]) {
            tells(Refusal::new(number, 0, &Settings::for_rate(8_000), 0), number, number != 99);
        }
    }

    #[test]
    fn refusals_of_cards_tell_their_number() {
        for number in (20..=24).chain([99]) {
            tells(Refusal::of_card(number, &[0x30; SHORTEST_CARD]), number, number != 99);
        }
    }

    #[test]
    fn refusals_of_sets_tell_their_number() {
        for number in (20..=23).chain(30..=33).chain([99]) {
            tells(Refusal::of_set(number, &[0x30; SHORTEST_CARD]), number, number != 99);
        }
    }
}
