//! Scores and keys: a record is 41 numbers, the patterns of the chroma's 12 bins and of the 24 scores, the key
//! number, the patterns of best score, second score and confidence, and 1 where the chroma has no shape, else 0.
use crate::patterns::{SEED, pattern};
use bench::inputs::chromas::Kind;
use bench::oracle::key_lime::expose::{classify_key_impl, key_confidence, key_number};
use bench::oracle::shapes::is_shapeless;
use bench::oracle::{borderline, floored};
use ulyptesh::Chroma;

const OF_EACH_KIND: usize = 12;

/// Only every so many chromas are taken, as those found in one search stand together.
const APART: usize = 5;

fn record(chroma: Chroma) -> Vec<u32> {
    let (key, best, second, scores) = classify_key_impl(&chroma);
    let before_key = chroma.iter().chain(&scores).map(pattern);
    let after_key = [best, second, key_confidence(best, second)];
    let until_confidence = before_key.chain([key_number(key).into()]).chain(after_key.iter().map(pattern));
    until_confidence.chain([is_shapeless(&chroma).into()]).collect()
}

/// The records of one kind, which is named as it stands in the sample.
fn records(kind: Kind) -> Vec<u32> {
    println!("{OF_EACH_KIND} records: {}", kind.name);
    kind.chromas.step_by(APART).take(OF_EACH_KIND).flat_map(record).collect()
}

pub fn sample() -> Vec<u32> {
    let floored = floored::every_kind(SEED).into_iter().map(|floored| floored.kind);
    borderline::every_kind(SEED).chain(floored).flat_map(records).collect()
}
