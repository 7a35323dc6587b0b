//! The settings of an analysis, by options.
use super::failure::{Failure, bad_usage, refused};
use super::words::{Known, Words, with_word};
use std::num::NonZeroU32;
use std::str::FromStr;
use ulyptesh::Settings;

/// The options that all commands know that analyse.
pub const OPTIONS: [Known; 10] = [
    with_word("--rate"),
    with_word("--window"),
    with_word("--local-hop"),
    with_word("--segment-confidence"),
    with_word("--minimum-segment"),
    with_word("--coverage"),
    with_word("--notes"),
    with_word("--frame-size"),
    with_word("--hop-size"),
    with_word("--engine"),
];

/// Two MIDI notes with a dash between them.
struct Notes(u8, u8);

impl FromStr for Notes {
    type Err = ();

    fn from_str(word: &str) -> Result<Self, ()> {
        let (lowest, highest) = word.split_once('-').ok_or(())?;
        Ok(Self(lowest.parse().map_err(drop)?, highest.parse().map_err(drop)?))
    }
}

/// A number from 0 to 1.
struct Part(f32);

impl FromStr for Part {
    type Err = ();

    fn from_str(word: &str) -> Result<Self, ()> {
        let part = word.parse().map_err(drop)?;
        if (0.0..=1.0).contains(&part) { Ok(Self(part)) } else { Err(()) }
    }
}

/// Puts an option's value into its place, where it is given.
fn set<A: FromStr>(words: &Words, name: &str, what: &str, place: &mut A) -> Result<(), Failure> {
    if let Some(value) = words.value(name, what)? {
        *place = value;
    }
    Ok(())
}

/// The settings that the words ask for; such as analyse nothing are refused.
pub fn read(words: &Words) -> Result<Settings, Failure> {
    let rate: Option<NonZeroU32> = words.value("--rate", "a rate: a whole number from 1 to 192000")?;
    let rate = rate.ok_or_else(|| bad_usage("--rate is missing: raw samples do not tell their rate"))?;
    let mut asked = Settings::for_rate(rate.get());
    let mut notes = Notes(asked.minimum_midi_note, asked.maximum_midi_note);
    let (mut coverage, mut confidence) =
        (Part(asked.alternate_coverage_threshold), Part(asked.segment_confidence_threshold));
    let (seconds, part, samples) = ("a number of seconds", "a part from 0 to 1", "a number of samples");
    set(words, "--window", seconds, &mut asked.local_window_seconds)?;
    set(words, "--local-hop", seconds, &mut asked.local_hop_seconds)?;
    set(words, "--segment-confidence", part, &mut confidence)?;
    set(words, "--minimum-segment", seconds, &mut asked.minimum_segment_seconds)?;
    set(words, "--coverage", part, &mut coverage)?;
    set(words, "--notes", "two MIDI notes such as 36-95", &mut notes)?;
    set(words, "--frame-size", samples, &mut asked.frame_size)?;
    set(words, "--hop-size", samples, &mut asked.hop_size)?;
    set(words, "--engine", "the number of an engine, 0 or 1", &mut asked.engine.0)?;
    (asked.minimum_midi_note, asked.maximum_midi_note) = (notes.0, notes.1);
    (asked.alternate_coverage_threshold, asked.segment_confidence_threshold) = (coverage.0, confidence.0);
    asked.check().map_err(refused)?;
    Ok(asked)
}

#[cfg(test)]
mod tests {
    use super::*;
    use ulyptesh::Engine;

    /// The engine that is asked for, or the failure's message and status.
    fn engine(asked: &[&str]) -> Result<Engine, (String, u8)> {
        let given: Vec<_> = ["--rate", "8000"].iter().chain(asked).map(Into::into).collect();
        let read = Words::read(&given, &OPTIONS).and_then(|words| read(&words));
        read.map(|settings| settings.engine).map_err(|failure| (failure.message, failure.status))
    }

    #[test]
    fn an_engine_is_asked_for_by_its_number() {
        assert_eq!(engine(&[]), Ok(Engine::SIDE_BY_SIDE));
        assert_eq!(engine(&["--engine", "0"]), Ok(Engine::SIDE_BY_SIDE));
        assert_eq!(engine(&["--engine=1"]), Ok(Engine::FOUR_AT_A_TIME));
    }

    #[test]
    fn other_numbers_are_refused() {
        for number in ["2", "4294967295"] {
            let message = format!("the engine, {number}, is neither 0 nor 1 (refusal 13)");
            assert_eq!(engine(&["--engine", number]), Err((message, 1)));
        }
    }

    #[test]
    fn words_that_are_no_such_number_are_bad_usage() {
        for word in ["four", "-1", "0.5", "4294967296", ""] {
            let (message, status) = engine(&["--engine", word]).expect_err(word);
            let told = format!("'{word}' is not the number of an engine, 0 or 1");
            assert_eq!((message.lines().next(), status), (Some(&*told), 2));
        }
    }
}
