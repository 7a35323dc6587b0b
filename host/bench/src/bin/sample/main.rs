//! Samples of the oracle's answers, the same in every run, for a program that replays them: scores and keys, and
//! whole analyses. A sample is numbers of 32 bits, each with its lowest byte first; every NaN has one pattern.
#[cfg(oracle)]
mod analyses;
#[cfg(oracle)]
mod patterns;
#[cfg(oracle)]
mod scores;
#[cfg(oracle)]
mod tracks;

use std::fs;
use std::io;
use std::path::Path;
use std::process::ExitCode;

/// A file's name and the numbers in it.
type Sample = (&'static str, fn() -> Vec<u32>);

/// None where there is no oracle.
const SAMPLES: &[Sample] = &[
    #[cfg(oracle)]
    ("scores.sample", scores::sample),
    #[cfg(oracle)]
    ("analyses.sample", analyses::sample),
];

fn write_to(folder: &Path) -> io::Result<()> {
    SAMPLES.iter().try_for_each(|(name, numbers)| {
        let bytes: Vec<u8> = numbers().into_iter().flat_map(u32::to_le_bytes).collect();
        fs::write(folder.join(name), bytes)
    })
}

fn write(folder: &str) -> ExitCode {
    match write_to(Path::new(folder)) {
        Ok(()) => ExitCode::SUCCESS,
        Err(why) => {
            eprintln!("sample: {folder}: {why}");
            ExitCode::FAILURE
        }
    }
}

fn main() -> ExitCode {
    let words: Vec<String> = std::env::args().skip(1).collect();
    match words.as_slice() {
        _ if SAMPLES.is_empty() => {
            eprintln!("sample: there is no oracle, so nothing was written");
            ExitCode::FAILURE
        }
        [folder] => write(folder),
        _ => {
            eprintln!("usage: sample FOLDER");
            ExitCode::from(2)
        }
    }
}
