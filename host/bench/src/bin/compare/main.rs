//! Runs the library beside the Rust it was ported from, on the same inputs, and compares every bit. A module per
//! topic; a named group of inputs is one test. Topics that rest on the request's words, or on the machine's own
//! arithmetic, run without that Rust too.
mod allocations;
#[cfg(oracle)]
mod alternates;
mod analyses;
mod analysis_calls;
mod analysis_left;
mod analyzers;
#[cfg(oracle)]
mod block_tracks;
mod both_engines;
mod card_breaches;
mod card_calls;
mod card_limits;
mod card_model;
mod card_orders;
mod card_random;
mod card_reads;
mod card_rounds;
mod cards;
mod chroma_calls;
#[cfg(oracle)]
mod chroma_edges;
#[cfg(oracle)]
mod chroma_leaves;
mod edges;
mod engines;
#[cfg(oracle)]
mod estimate_lists;
#[cfg(oracle)]
mod estimates;
#[cfg(oracle)]
mod filters;
#[cfg(oracle)]
mod filters_tracks;
mod format;
mod frame_calls;
#[cfg(oracle)]
mod frames;
mod groups;
mod json;
mod key_names;
#[cfg(oracle)]
mod keys;
mod lister;
#[cfg(oracle)]
mod magnitude_inputs;
#[cfg(oracle)]
mod magnitudes;
mod medians;
mod numbers;
mod orders;
mod packed;
mod packed_cards;
mod refusals;
mod rows;
#[cfg(oracle)]
mod scores;
#[cfg(oracle)]
mod segment_lists;
#[cfg(oracle)]
mod segment_tracks;
#[cfg(oracle)]
mod segments;
mod set_calls;
mod set_cards;
mod set_edges;
mod set_histories;
mod set_model;
mod set_orders;
mod set_places;
mod set_runs;
mod set_summaries;
mod set_unreadable;
mod sets;
#[cfg(oracle)]
mod shapeless_tracks;
#[cfg(oracle)]
mod shapes;
mod sheets;
#[cfg(oracle)]
mod short_tracks;
#[cfg(oracle)]
mod shortening;
mod stored_cards;
#[cfg(oracle)]
mod their_analyses;
mod tool_cards;
mod tool_forms;
#[cfg(oracle)]
mod tool_inputs;
mod tool_json;
mod tool_libraries;
mod tool_memory;
mod tool_outputs;
mod tool_pictures;
mod tool_refusals;
mod tool_runs;
mod tool_totals;
mod tool_totals_files;
#[cfg(oracle)]
mod tool_tracks;
#[cfg(oracle)]
mod track_edges;
mod track_ends;
mod track_length;
#[cfg(oracle)]
mod whole_tracks;
mod window_counts;
mod windows;

use groups::Groups;
use std::process::ExitCode;

const USAGE: &str = "usage: compare [--seed NUMBER] [--all] [--only TOPIC]
  --seed NUMBER  start of the random inputs
  --all          also square_root and floor on all 2^32 patterns, which takes about a minute
  --only TOPIC   one topic alone, such as frames or tool_tracks";

const SEED: u64 = 44_100;

/// A module's name and its groups; none where they need the oracle and there is none.
struct Topic {
    name: &'static str,
    compare: Option<fn(&mut Groups)>,
}

/// A topic that needs no oracle.
macro_rules! alone {
    ($topic:ident) => {
        Topic { name: stringify!($topic), compare: Some($topic::compare) }
    };
}

/// A topic that needs the oracle.
macro_rules! beside_oracle {
    ($topic:ident) => {
        Topic {
            name: stringify!($topic),
            #[cfg(oracle)]
            compare: Some($topic::compare),
            #[cfg(not(oracle))]
            compare: None,
        }
    };
}

const TOPICS: [Topic; 44] = [
    alone!(numbers),
    alone!(orders),
    alone!(key_names),
    beside_oracle!(keys),
    beside_oracle!(scores),
    beside_oracle!(shapes),
    beside_oracle!(chroma_leaves),
    alone!(medians),
    alone!(packed),
    alone!(cards),
    alone!(card_reads),
    alone!(packed_cards),
    alone!(lister),
    alone!(stored_cards),
    alone!(sets),
    alone!(track_ends),
    alone!(sheets),
    beside_oracle!(magnitudes),
    beside_oracle!(filters),
    alone!(refusals),
    beside_oracle!(frames),
    beside_oracle!(estimates),
    beside_oracle!(shortening),
    beside_oracle!(alternates),
    beside_oracle!(segments),
    beside_oracle!(block_tracks),
    beside_oracle!(track_edges),
    beside_oracle!(shapeless_tracks),
    beside_oracle!(short_tracks),
    beside_oracle!(whole_tracks),
    alone!(window_counts),
    alone!(engines),
    alone!(allocations),
    alone!(analyzers),
    alone!(tool_refusals),
    alone!(tool_outputs),
    alone!(tool_forms),
    alone!(tool_json),
    alone!(tool_cards),
    alone!(tool_totals),
    alone!(tool_libraries),
    alone!(tool_memory),
    alone!(tool_pictures),
    beside_oracle!(tool_tracks),
];

struct Options {
    seed: u64,
    all: bool,
    only: Option<String>,
}

fn options(mut words: impl Iterator<Item = String>) -> Result<Options, String> {
    let mut given = Options { seed: SEED, all: false, only: None };
    while let Some(word) = words.next() {
        match word.as_str() {
            "--all" => given.all = true,
            "--seed" => given.seed = seed(words.next())?,
            "--only" => given.only = Some(topic(words.next())?),
            _ => return Err(format!("'{word}' is not an option")),
        }
    }
    Ok(given)
}

fn seed(word: Option<String>) -> Result<u64, String> {
    let word = word.ok_or("--seed needs a number")?;
    word.parse().map_err(|_| format!("'{word}' is not a whole number that 64 bits hold"))
}

fn topic(word: Option<String>) -> Result<String, String> {
    let word = word.ok_or("--only needs a topic")?;
    let known = TOPICS.iter().any(|topic| topic.name == word);
    if known { Ok(word) } else { Err(format!("'{word}' is not a topic")) }
}

fn compare(given: &Options) -> ExitCode {
    let mut groups = Groups::new(given.seed, given.all);
    let asked = |topic: &&Topic| given.only.as_deref().is_none_or(|only| only == topic.name);
    TOPICS.iter().filter(asked).for_each(|topic| match topic.compare {
        Some(compare) => compare(&mut groups),
        None => println!("{}: left out, as there is no oracle", topic.name),
    });
    groups.close()
}

fn main() -> ExitCode {
    match options(std::env::args().skip(1)) {
        Ok(given) => compare(&given),
        Err(why) => {
            eprintln!("compare: {why}\n{USAGE}");
            ExitCode::from(2)
        }
    }
}
