//! The scores beside the oracle's: nanoseconds for one chroma.
use crate::SEED;
use crate::rounds::{Pair, header};
use bench::inputs::chromas::plain_kinds;
use bench::oracle::key_lime::classify_key_scores;
use std::hint::black_box;
use ulyptesh::Chroma;
use ulyptesh::scores;

const CHROMAS: usize = 1 << 9;

pub fn print_row() {
    let normalised = plain_kinds(SEED).find(|kind| kind.name == "normalised").expect("a kind of that name");
    let chromas: Vec<Chroma> = normalised.chromas.take(CHROMAS).collect();
    header("ns for one chroma", "oracle");
    Pair::of_steps(
        1,
        &chromas,
        |chroma| black_box(scores(&chroma))[0],
        |chroma| black_box(classify_key_scores(&chroma))[0],
    )
    .print("scores, normalised chromas");
}
