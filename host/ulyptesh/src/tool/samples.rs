//! Raw samples from a file or from standard input.
use super::containers::{self, TELLING};
use super::failure::{Failure, refused_about};
use std::ffi::OsStr;
use std::fs::File;
use std::io::{self, ErrorKind, Read};
use ulyptesh::calls::LONGEST_TRACK_SECONDS;
use ulyptesh::{Refusal, Settings};

const BYTES: usize = size_of::<f32>();

/// So many bytes are read at once.
const BLOCK: usize = 1 << 16;

/// The library's number for a track that is too long.
const TOO_LONG: u32 = 4;

/// The word for standard input.
pub const STANDARD_INPUT: &str = "-";

/// Puts the samples of a file in place of what is there. Reading stops where the track is too long in any case.
pub fn read(file: &OsStr, settings: &Settings, samples: &mut Vec<f32>) -> Result<(), Failure> {
    samples.clear();
    if file == STANDARD_INPUT {
        return take(file, io::stdin().lock(), settings, samples);
    }
    let failed = |why| refused_about(file, why);
    let opened = File::open(file).map_err(failed)?;
    let length = opened.metadata().map_or(0, |about| about.len() as usize / BYTES);
    if length > longest(settings) {
        return Err(refused_about(file, Refusal::new(TOO_LONG, 0, settings, length)));
    }
    samples.try_reserve_exact(length).map_err(|_| failed(no_memory_for(length)))?;
    take(file, opened, settings, samples)
}

fn no_memory_for(samples: usize) -> io::Error {
    io::Error::other(format!("there is too little memory for {samples} samples"))
}

/// How many samples the longest track has.
fn longest(settings: &Settings) -> usize {
    LONGEST_TRACK_SECONDS * settings.rate as usize
}

fn take(
    file: &OsStr,
    mut from: impl Read,
    settings: &Settings,
    samples: &mut Vec<f32>,
) -> Result<(), Failure> {
    let mut first = vec![];
    let failed = |why| refused_about(file, why);
    from.by_ref().take(TELLING).read_to_end(&mut first).map_err(failed)?;
    if first.is_empty() {
        return Err(refused_about(file, "there are no samples"));
    }
    if let Some(kind) = containers::kind(&first) {
        let decoding = containers::decoding(file, settings.rate);
        return Err(refused_about(
            file,
            format!("{kind}, and no raw samples; decode it first:\n  {decoding}"),
        ));
    }
    match gather(first.as_slice().chain(from), longest(settings), samples).map_err(failed)? {
        0 => Ok(()),
        _ => {
            let why = format!("the length is no multiple of {BYTES} bytes, so these are no samples");
            Err(refused_about(file, why))
        }
    }
}

/// For so many samples more and some to spare or, where memory does not hold these, for no others.
fn make_room(samples: &mut Vec<f32>, more: usize) -> io::Result<()> {
    let made = samples.try_reserve(more).or_else(|_| samples.try_reserve_exact(more));
    made.map_err(|_| no_memory_for(samples.len() + more))
}

/// Appends whole samples, and gives the number of bytes behind the last.
fn gather(mut from: impl Read, most: usize, samples: &mut Vec<f32>) -> io::Result<usize> {
    let (mut block, mut kept) = ([0; BLOCK], 0);
    while samples.len() <= most {
        let filled = match from.read(&mut block[kept..]) {
            Ok(0) => return Ok(kept),
            Ok(count) => kept + count,
            Err(why) if why.kind() == ErrorKind::Interrupted => continue,
            Err(why) => return Err(why),
        };
        let (whole, rest) = block[..filled].as_chunks::<BYTES>();
        make_room(samples, whole.len())?;
        samples.extend(whole.iter().map(|&bytes| f32::from_le_bytes(bytes)));
        kept = rest.len();
        block.copy_within(filled - kept..filled, 0);
    }
    Ok(0)
}
