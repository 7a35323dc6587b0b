//! Chromas without shape: what is said of the kinds about the floor of divisors, how many divisors can be held up, and
//! the chromas that the request names.
use crate::chroma_calls::our_scores;
use crate::groups::Groups;
use bench::oracle::floored::{about_a_border, can_be_held_up, every_kind};
use ulyptesh::Chroma;
use ulyptesh::calls::{KEYS, key};

/// So many chromas of each kind, and so many about all borders.
const OF_EACH_KIND: usize = 1 << 12;
const ABOUT_BORDERS: usize = 1 << 17;

/// The stream of the seed for those about all borders.
const STREAM: u64 = 59;

/// The kinds, by the oracle's own divisors.
fn compare_kinds(groups: &mut Groups) {
    for floored in every_kind(groups.seed) {
        let (name, said) = (format!("divisors, {}", floored.kind.name), floored.said);
        let inputs = floored.kind.chromas.zip((0..said.len()).cycle()).take(OF_EACH_KIND);
        groups.group(&name, inputs, |(chroma, nth)| said[nth].holds(&chroma), |_| true);
    }
    let counts = about_a_border(groups.seed, STREAM).take(ABOUT_BORDERS);
    groups.group("how many divisors are held up", counts, can_be_held_up, |_| true);
}

fn with_bin(chroma: Chroma, bin: usize, x: f32) -> Chroma {
    let mut changed = chroma;
    changed[bin] = x;
    changed
}

/// A major triad on C.
const TRIAD: Chroma = [1.0, 0.0, 0.0, 0.0, 1.0, 0.0, 0.0, 1.0, 0.0, 0.0, 0.0, 0.0];

/// Chromas, and whether they have no shape: zeros and equal bins, with one bin that is not a number or not finite, and
/// some with a plain shape.
fn named() -> Vec<(Chroma, bool)> {
    let equal = [0.0, -0.0, 1.0, 0.25, f32::NAN, f32::INFINITY, f32::NEG_INFINITY].map(|x| ([x; 12], true));
    let odd = [f32::NAN, -f32::NAN, f32::INFINITY, f32::NEG_INFINITY];
    let spoilt = (0..12).flat_map(|bin| odd.map(|x| (with_bin(TRIAD, bin, x), true)));
    let one_bin = (0..12).map(|bin| (with_bin([0.0; 12], bin, 1.0), false));
    equal.into_iter().chain(spoilt).chain(one_bin).chain([(TRIAD, false)]).collect()
}

/// What the scores call and the key call say.
fn ours(chroma: &Chroma) -> [u32; 2] {
    [our_scores(chroma, KEYS).0.shapeless, key(chroma).shapeless]
}

pub fn compare(groups: &mut Groups) {
    compare_kinds(groups);
    let named = named();
    let wanted = |nth: usize| [named[nth].1.into(); 2];
    groups.group(
        "chromas that are plainly without shape or not",
        0..named.len(),
        |nth| ours(&named[nth].0),
        wanted,
    );
}
