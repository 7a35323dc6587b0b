//! Both sides in turn, round after round: the medians of their times and of the rounds' ratios.
use std::array;
use std::hint::black_box;
use std::time::Instant;

/// Rounds of a pair, and turns of a round where one call is short.
pub const ROUNDS: usize = 7;
const TURNS: usize = 100;

/// How long each side takes, and how many times as long ours does.
pub struct Pair {
    ours: f64,
    theirs: f64,
    ratio: f64,
}

fn middle(mut values: Vec<f64>) -> f64 {
    values.sort_by(f64::total_cmp);
    values[values.len() / 2]
}

/// The median of so many times.
pub fn median_of(rounds: usize, mut time: impl FnMut() -> f64) -> f64 {
    middle((0..rounds).map(|_| time()).collect())
}

impl Pair {
    /// A round is ours, then theirs; each tells its time.
    pub fn of_times(ours: impl Fn() -> f64, theirs: impl Fn() -> f64) -> Self {
        Self::of_rounds(ROUNDS, ours, theirs)
    }

    /// The same of so many rounds.
    pub fn of_rounds(rounds: usize, ours: impl Fn() -> f64, theirs: impl Fn() -> f64) -> Self {
        let [pair] = Self::of_ways(rounds, |_| ours(), theirs);
        pair
    }

    /// A round is ours in several ways, by their number, then theirs; a pair for each way.
    pub fn of_ways<const WAYS: usize>(
        rounds: usize,
        ours: impl Fn(usize) -> f64,
        theirs: impl Fn() -> f64,
    ) -> [Self; WAYS] {
        let round = || (array::from_fn::<f64, WAYS, _>(&ours), theirs());
        let rounds: Vec<_> = (0..rounds).map(|_| round()).collect();
        array::from_fn(|way| Self::of_pairs(rounds.iter().map(|round| (round.0[way], round.1)).collect()))
    }

    /// The times of each round.
    fn of_pairs(rounds: Vec<(f64, f64)>) -> Self {
        let median = |of: fn(&(f64, f64)) -> f64| middle(rounds.iter().map(of).collect());
        Self { ours: median(|r| r.0), theirs: median(|r| r.1), ratio: median(|r| r.0 / r.1) }
    }

    /// In seconds, of work that is done once in a round.
    #[cfg(oracle)]
    pub fn of_work<A, B>(ours: impl Fn() -> A, theirs: impl Fn() -> B) -> Self {
        Self::of_times(|| seconds(&ours), || seconds(&theirs))
    }

    /// In nanoseconds for one of the values, each of which takes so many steps.
    pub fn of_steps<X: Copy>(
        steps: usize,
        values: &[X],
        ours: impl Fn(X) -> f32,
        theirs: impl Fn(X) -> f32,
    ) -> Self {
        Self::of_times(|| nanoseconds(steps, values, &ours), || nanoseconds(steps, values, &theirs))
    }

    pub fn print(&self, name: &str) {
        println!("{name:30} {:10.3} {:10.3} {:7.3}", self.ours, self.theirs, self.ratio);
    }
}

/// The names of a table's columns.
pub fn header(what: &str, theirs: &str) {
    println!("{what:30} {:>10} {theirs:>10} {:>7}", "ours", "ratio");
}

/// How long the work takes, to the end of what it makes.
pub fn seconds<A>(work: impl FnOnce() -> A) -> f64 {
    let begun = Instant::now();
    black_box(work());
    begun.elapsed().as_secs_f64()
}

/// The sum of the results' bits keeps every result needed.
fn one_turn<X: Copy>(values: &[X], leaf: impl Fn(X) -> f32) -> u32 {
    values.iter().fold(0, |sum, &x| sum.wrapping_add(black_box(leaf(black_box(x))).to_bits()))
}

/// For one step of a value.
pub fn nanoseconds<X: Copy>(steps: usize, values: &[X], leaf: impl Fn(X) -> f32) -> f64 {
    let turns = || (0..TURNS).fold(0, |sum: u32, _| sum.wrapping_add(one_turn(values, &leaf)));
    seconds(turns) * 1e9 / (TURNS * values.len()) as f64 / steps as f64
}
