//! The musical key of a track: safe Rust over the calls of the verified library.
//!
//! An [`Analyzer`] is all that a planner needs: mono samples in, key, alternate key and key segments out.
//! A [`Card`] is all that a deck needs: the bytes of a key card in, the same in thousandths and milliseconds out.
//! A [`CardSet`] keeps cards together with how long each key sounds on all of them.
//! [`key`] and [`scores`] judge a single chroma, and [`calls`] has the library's calls one by one, over lent memory.
//! A chroma may be so even that no key stands out: [`is_shapeless`] says so, and an analysis of the track and its
//! windows.
//!
//! ```
//! # fn main() -> Result<(), Box<dyn std::error::Error>> {
//! let samples: Vec<f32> = (0..441_000).map(|n| (n as f32 * 0.0627).sin()).collect();
//! let told = ulyptesh::Analyzer::for_rate(44_100)?.analyse(&samples)?;
//! println!("{:?} with a confidence of {}", told.key, told.confidence);
//! # Ok(())
//! # }
//! ```
//!
//! An analysis takes up to 96 KiB of the stack.
//!
//! The library is proved for the floating-point environment that a program starts with: round to nearest, and
//! subnormal numbers kept. Nothing here reads or sets it: code that has set flush to zero, as audio hosts do, takes
//! that back around a call.
#![warn(missing_docs)]

mod analyzer;
pub mod calls;
mod card;
mod card_set;
mod chroma;
mod found;
mod keys;
#[cfg(test)]
mod made;
mod notation;
mod refusal;
mod set_totals;
mod settings;
mod tables;

pub use analyzer::{Analyzer, Estimate, LoudFrame};
pub use card::{Card, CardAlternate, CardError, CardSegment};
pub use card_set::CardSet;
pub use chroma::{Chroma, FoundKey, is_shapeless, key, scores};
pub use found::{Alternate, Analysis, Segment};
pub use keys::{Key, Mode, NoSuchKey, Tonic};
pub use notation::{NoSuchNotation, Notation, UnknownKey};
pub use refusal::Refusal;
pub use set_totals::SetTotals;
pub use settings::{Engine, Settings};

/// The Rust of the README's quick start, compiled and run with the documentation's tests.
#[cfg(doctest)]
#[doc = include_str!("../../../README.md")]
struct Readme;
