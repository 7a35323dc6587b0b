//! Our leaves beside the hardware's and our calls beside the oracle's, on the same inputs, topic by topic.
#[cfg(oracle)]
mod analyses;
mod cards;
#[cfg(oracle)]
mod engines;
#[cfg(oracle)]
mod filters;
#[cfg(oracle)]
mod frames;
#[cfg(oracle)]
mod growth;
mod leaves;
#[cfg(oracle)]
mod long_lists;
#[cfg(oracle)]
mod medians;
#[cfg(oracle)]
mod memory;
mod plain_sets;
mod rounds;
#[cfg(oracle)]
mod scores;
#[cfg(oracle)]
mod segments;
mod sets;
#[cfg(oracle)]
mod tracks;

use std::ffi::OsString;
use std::process::ExitCode;

const USAGE: &str = "usage: speed [--only TOPIC | --once | --memory]
  --only TOPIC  one topic alone, such as filters or growth
  --once        one analysis of half a minute and no time, for a profiler
  --memory      the most memory for a track, instead of times";

const SEED: u64 = 44_100;

/// A module's name and its tables.
type Topic = (&'static str, fn());

const TOPICS: &[Topic] = &[
    ("leaves", leaves::print_rows),
    #[cfg(oracle)]
    ("scores", scores::print_row),
    #[cfg(oracle)]
    ("filters", filters::print_rows),
    #[cfg(oracle)]
    ("frames", frames::print_rows),
    #[cfg(oracle)]
    ("medians", medians::print_row),
    #[cfg(oracle)]
    ("segments", segments::print_rows),
    #[cfg(oracle)]
    ("lists", long_lists::print_rows),
    #[cfg(oracle)]
    ("analyses", analyses::print_rows),
    #[cfg(oracle)]
    ("growth", growth::print_rows),
    ("cards", cards::print_rows),
    ("sets", sets::print_rows),
];

/// The topic of this name alone.
fn only(name: &OsString) -> Result<(), String> {
    let asked = TOPICS.iter().find(|topic| name == topic.0);
    asked.map(|topic| topic.1()).ok_or(format!("'{}' is not a topic", name.display()))
}

/// The program of the oracle's side of `--memory` is this one with a file.
fn run(words: &[OsString]) -> Result<(), String> {
    match words {
        [] => TOPICS.iter().for_each(|topic| topic.1()),
        [word, name] if word == "--only" => only(name)?,
        [word] if word == "--only" => return Err("--only needs a topic".to_string()),
        #[cfg(oracle)]
        [word] if word == "--once" => analyses::analyse_once(),
        #[cfg(oracle)]
        [word] if word == "--memory" => memory::print_row(),
        #[cfg(oracle)]
        [word, file] if word == "--memory" => memory::analyse_theirs(file),
        [word, ..] => return Err(format!("'{}' is not an option", word.display())),
    }
    Ok(())
}

fn main() -> ExitCode {
    let words: Vec<OsString> = std::env::args_os().skip(1).collect();
    match run(&words) {
        Ok(()) => ExitCode::SUCCESS,
        Err(why) => {
            eprintln!("speed: {why}\n{USAGE}");
            ExitCode::from(2)
        }
    }
}
