//! The commands of the tool, a module per topic.
mod asked;
mod bars;
mod card_files;
mod cards;
mod containers;
mod demo;
mod desk;
mod failure;
mod hatching;
mod heat_map;
mod help;
mod json;
#[cfg(test)]
mod made;
mod outputs;
mod picture;
mod progress;
mod ranking;
mod report;
mod samples;
mod settings;
mod text;
mod totals;
mod tracks;
mod words;

use failure::{Failure, bad_usage, quoted, refused, tell};
use std::ffi::{OsStr, OsString};
use std::io::{Write, stdout};
use std::process::ExitCode;
use text::{NO_SHAPE, named};
use ulyptesh::calls::{PITCH_CLASSES, abi};
use ulyptesh::{Chroma, Key, key};
use words::{Known, Words, value, with_word};

/// A command: its name, the options it knows, what is said of it, and what it does.
struct Command {
    name: &'static str,
    options: &'static [&'static [Known]],
    help: &'static [&'static str],
    run: fn(Words) -> Result<(), Failure>,
}

const NOTATION: &[Known] = &[with_word("--notation")];

const COMMANDS: [Command; 7] = [
    Command {
        name: "analyse",
        options: &[&settings::OPTIONS, &asked::OPTIONS],
        help: &[help::ANALYSE, help::SETTINGS, help::ENDING],
        run: tracks::analyse,
    },
    Command {
        name: "key-at",
        options: &[&settings::OPTIONS, NOTATION],
        help: &[help::KEY_AT, help::SETTINGS],
        run: tracks::key_at,
    },
    Command { name: "card", options: &[&cards::OPTIONS], help: &[help::CARD], run: cards::run },
    Command { name: "totals", options: &[&totals::OPTIONS], help: &[help::TOTALS], run: totals::run },
    Command { name: "key", options: &[NOTATION], help: &[help::KEY], run: key_of_words },
    Command { name: "key-name", options: &[NOTATION], help: &[help::KEY_NAME], run: name_of_word },
    Command { name: "demo", options: &[&demo::OPTIONS], help: &[help::DEMO], run: demo::run },
];

/// Writes to standard output, all the way.
fn print(bytes: &[u8]) -> Result<(), Failure> {
    let mut out = stdout().lock();
    let written = out.write_all(bytes).and_then(|()| out.flush());
    written.map_err(|why| refused(format!("standard output: {why}")))
}

/// One line, or several, on standard output.
fn say(text: &str) -> Result<(), Failure> {
    print(format!("{text}\n").as_bytes())
}

/// The key with what speaks for it, each number in as few digits as tell it from all others.
fn key_of(chroma: &Chroma, words: &Words) -> Result<String, Failure> {
    let (found, notation) = (key(chroma), asked::notation(words)?);
    let (name, best, second) = (named(found.key, notation), found.best, found.second);
    let shape =
        if found.shapeless { format!("; {NO_SHAPE}: key and scores say little") } else { String::new() };
    Ok(format!("{name}: best score {best:?}, second {second:?}, confidence {:?}{shape}", found.confidence))
}

fn key_of_words(words: Words) -> Result<(), Failure> {
    let numbers = words.plain.iter().map(|word| value(word, "a number"));
    let numbers: Vec<f32> = numbers.collect::<Result<_, Failure>>()?;
    let wrong = |numbers: Vec<f32>| {
        bad_usage(format!("key needs {PITCH_CLASSES} numbers, a chroma from C upward, not {}", numbers.len()))
    };
    say(&key_of(&numbers.try_into().map_err(wrong)?, &words)?)
}

fn name_of_word(words: Words) -> Result<(), Failure> {
    let [word] = &words.plain[..] else { return Err(bad_usage("key-name needs one number")) };
    let number: u32 = value(word, "a whole number from 0 to 4294967295")?;
    let (key, notation) = (Key::try_from(number).map_err(refused)?, asked::notation(&words)?);
    say(&notation.map_or_else(|| key.name(), |notation| key.in_notation(notation)))
}

fn command(name: &OsStr) -> Result<&'static Command, Failure> {
    let found = COMMANDS.iter().find(|command| name == command.name);
    found.ok_or_else(|| bad_usage(format!("{} is not a command", quoted(name))))
}

/// All that the tool says of itself.
fn whole_help() -> String {
    let of_tracks = [help::INTRODUCTION, help::ANALYSE, help::SETTINGS, help::KEY_AT];
    let of_others = [help::CARD, help::TOTALS, help::KEY, help::KEY_NAME, help::DEMO, help::ENDING];
    [&of_tracks[..], &of_others].concat().join("\n")
}

fn is_help(word: &OsString) -> bool {
    word == "--help" || word == "-h"
}

fn run(given: &[OsString]) -> Result<(), Failure> {
    let Some((first, words)) = given.split_first() else { return Err(bad_usage("no command was given")) };
    match (first.to_str(), words) {
        (Some("--version" | "-V"), []) => say(&format!("{}, interface {}", help::VERSION, abi())),
        (Some("--help" | "-h" | "help"), []) => print(whole_help().as_bytes()),
        (Some("help"), [name]) => print(command(name)?.help.join("\n").as_bytes()),
        (Some("help"), _) => Err(bad_usage("help takes one command")),
        _ => {
            let command = command(first)?;
            if words.iter().take_while(|word| *word != "--").any(is_help) {
                return print(command.help.join("\n").as_bytes());
            }
            (command.run)(Words::read(words, &command.options.concat())?)
        }
    }
}

pub fn main() -> ExitCode {
    let given: Vec<OsString> = std::env::args_os().skip(1).collect();
    match run(&given) {
        Ok(()) => ExitCode::SUCCESS,
        Err(failure) => {
            tell(&failure.message);
            ExitCode::from(failure.status)
        }
    }
}

#[cfg(test)]
mod tests {
    use super::*;

    #[test]
    fn a_chroma_without_shape_is_told() {
        let told = |chroma: Chroma| key_of(&chroma, &Words::default()).ok();
        let mark = |text: String| text.ends_with("; the chroma has no shape: key and scores say little");
        assert_eq!(told([0.5; PITCH_CLASSES]).map(mark), Some(true));
        let triad = [1.0, 0.0, 0.0, 0.0, 1.0, 0.0, 0.0, 1.0, 0.0, 0.0, 0.0, 0.0];
        assert_eq!(told(triad).map(|text| text.contains("shape")), Some(false));
    }

    #[test]
    fn every_option_is_told() {
        let help = whole_help();
        for option in COMMANDS.iter().flat_map(|command| command.options.concat()) {
            assert!(help.contains(&format!("  {} ", option.name)), "{}", option.name);
        }
    }
}
