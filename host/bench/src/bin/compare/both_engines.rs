//! A call by both engines.
use crate::groups::Compared;
use bench::inputs::engines::by_other;
use ulyptesh::Settings;

/// What a call leaves as it is asked, and what it leaves with the other engine, where that is something else.
pub fn by_both<A: Compared>(asked: Settings, left_by: impl Fn(Settings) -> A) -> (A, Option<String>) {
    let left = left_by(asked);
    let other = by_other(&asked).map(left_by).filter(|other| !other.same(&left));
    (left, other.map(|other| other.shown()))
}

/// As a reader needs it, behind what the call leaves as it is asked.
pub fn shown(other: Option<&String>) -> String {
    other.map_or_else(String::new, |other| format!("; with the other engine {other}"))
}
