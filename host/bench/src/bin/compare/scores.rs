//! Scores and key of a chroma, beside the oracle's.
use crate::chroma_calls::{MOST_PLACES, Places, our_scores, untouched};
use crate::groups::Groups;
use bench::inputs::chromas::Kind;
use bench::oracle::key_lime::expose::{classify_key_impl, key_confidence, key_number};
use bench::oracle::shapes::is_shapeless;
use bench::oracle::{borderline, floored};
use ulyptesh::Chroma;
use ulyptesh::calls::{self, KEYS, KeyResult, ScoresResult};

/// So many chromas of each kind, which makes over a million.
const OF_EACH_KIND: usize = 1 << 16;

/// So many about the floor of divisors, which take longer to find.
const OF_EACH_FLOORED_KIND: usize = 1 << 13;

/// A chroma, and how many places are lent for its scores.
type Asked = (Chroma, usize);

/// What both calls answer, with what the first leaves in the places.
type Answers = ((ScoresResult, Places), KeyResult);

fn ours((chroma, lent): Asked) -> Answers {
    (our_scores(&chroma, lent), calls::key(&chroma))
}

/// The oracle's answers in the form of ours.
fn theirs((chroma, _): Asked) -> Answers {
    let (key, best, second, scores) = classify_key_impl(&chroma);
    let mut places = untouched();
    places[..KEYS].copy_from_slice(&scores);
    let (key, confidence) = (u32::from(key_number(key)), key_confidence(best, second));
    let shapeless = is_shapeless(&chroma).into();
    (
        (ScoresResult { refusal: 0, shapeless }, places),
        KeyResult { refusal: 0, key, best, second, confidence, shapeless },
    )
}

/// As many places as there are scores, and more, in turn.
fn compare_kind(groups: &mut Groups, kind: Kind, count: usize) {
    let name = format!("scores and key, {}", kind.name);
    let asked = kind.chromas.zip((KEYS..=MOST_PLACES).cycle()).take(count);
    groups.group(&name, asked, ours, theirs);
}

pub fn compare(groups: &mut Groups) {
    for kind in borderline::every_kind(groups.seed) {
        compare_kind(groups, kind, OF_EACH_KIND);
    }
    for floored in floored::every_kind(groups.seed) {
        compare_kind(groups, floored.kind, OF_EACH_FLOORED_KIND);
    }
}
