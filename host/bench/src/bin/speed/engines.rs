//! Both engines beside the oracle: a round is each of ours, then theirs.
use crate::rounds::{Pair, ROUNDS, nanoseconds, seconds};
use bench::inputs::engines::ENGINES;
use ulyptesh::{Engine, Settings};

/// The Rust's own settings, with this engine.
pub fn settings_by(engine: Engine, rate: u32) -> Settings {
    Settings::for_rate(rate).with(|settings| settings.engine = engine)
}

/// A pair for each engine.
pub struct Pairs([Pair; ENGINES.len()]);

impl Pairs {
    /// In seconds, of work that is done once in a round.
    pub fn of_work<A, B>(ours: impl Fn(Engine) -> A, theirs: impl Fn() -> B) -> Self {
        Self(Pair::of_ways(ROUNDS, |nth| seconds(|| ours(ENGINES[nth])), || seconds(&theirs)))
    }

    /// In nanoseconds for one of the values, each of which takes so many steps.
    pub fn of_steps<X: Copy>(
        steps: usize,
        values: &[X],
        ours: impl Fn(Engine, X) -> f32,
        theirs: impl Fn(X) -> f32,
    ) -> Self {
        let by = |engine| nanoseconds(steps, values, |x| ours(engine, x));
        Self(Pair::of_ways(ROUNDS, |nth| by(ENGINES[nth]), || nanoseconds(steps, values, &theirs)))
    }

    pub fn print(&self, what: &str, rate: u32) {
        for (engine, pair) in ENGINES.iter().zip(&self.0) {
            pair.print(&format!("{what}, engine {}, {rate} Hz", engine.0));
        }
    }
}
