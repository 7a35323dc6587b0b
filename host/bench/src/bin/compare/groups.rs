//! Groups of inputs, each given to both sides, and what is said about them.
use std::iter;
use std::process::ExitCode;
use std::sync::Mutex;
use std::sync::atomic::{AtomicUsize, Ordering};
use std::thread;
use std::time::Instant;

/// So many differences of one group are printed.
const PRINTED: u64 = 5;

/// So many of a long run are shown.
const SHOWN: usize = 16;

/// What goes into a comparison or comes out of it.
pub trait Compared {
    /// Equal bit for bit; every NaN equals every other.
    fn same(&self, other: &Self) -> bool;

    /// As a reader needs it: floats by their bit pattern.
    fn shown(&self) -> String;
}

macro_rules! compared_exactly {
    ($($kind:ty),*) => {$(
        impl $crate::groups::Compared for $kind {
            fn same(&self, other: &Self) -> bool {
                self == other
            }

            fn shown(&self) -> String {
                format!("{self:?}")
            }
        }
    )*};
}

pub(crate) use compared_exactly;

/// Alike where they read alike, as every NaN does.
macro_rules! compared_as_shown {
    ($($kind:ty),*) => {$(
        impl $crate::groups::Compared for $kind {
            fn same(&self, other: &Self) -> bool {
                self.shown() == other.shown()
            }

            fn shown(&self) -> String {
                format!("{self:?}")
            }
        }
    )*};
}

pub(crate) use compared_as_shown;

compared_exactly!(bool, u8, u16, u32, u64, usize, String);

macro_rules! compared_as_floats {
    ($($kind:ty),*) => {$(
        impl Compared for $kind {
            fn same(&self, other: &Self) -> bool {
                self.to_bits() == other.to_bits() || (self.is_nan() && other.is_nan())
            }

            fn shown(&self) -> String {
                format!("{self:?} ({:#x})", self.to_bits())
            }
        }
    )*};
}

compared_as_floats!(f32, f64);

impl<A: Compared, B: Compared> Compared for (A, B) {
    fn same(&self, other: &Self) -> bool {
        self.0.same(&other.0) && self.1.same(&other.1)
    }

    fn shown(&self) -> String {
        format!("{}, {}", self.0.shown(), self.1.shown())
    }
}

impl<A: Compared> Compared for Option<A> {
    fn same(&self, other: &Self) -> bool {
        match (self, other) {
            (Some(one), Some(another)) => one.same(another),
            _ => self.is_none() && other.is_none(),
        }
    }

    fn shown(&self) -> String {
        self.as_ref().map_or("none".to_string(), A::shown)
    }
}

impl<A: Compared, const N: usize> Compared for [A; N] {
    fn same(&self, other: &Self) -> bool {
        self.iter().zip(other).all(|(one, another)| one.same(another))
    }

    fn shown(&self) -> String {
        self.each_ref().map(A::shown).join(", ")
    }
}

impl<A: Compared> Compared for Vec<A> {
    fn same(&self, other: &Self) -> bool {
        self.len() == other.len() && self.iter().zip(other).all(|(one, another)| one.same(another))
    }

    fn shown(&self) -> String {
        let front = self.iter().take(SHOWN).map(A::shown).collect::<Vec<_>>().join(", ");
        format!("{} in all, from {front}", self.len())
    }
}

/// The tests so far. The seed is what random inputs are made from; `all` asks for all 2^32 patterns too.
pub struct Groups {
    pub seed: u64,
    pub all: bool,
    passed: u64,
    failed: u64,
}

impl Groups {
    pub fn new(seed: u64, all: bool) -> Self {
        println!("comparison with seed {seed}");
        Self { seed, all, passed: 0, failed: 0 }
    }

    /// One test: both sides answer alike on every input.
    pub fn group<I: Compared + Clone, A: Compared>(
        &mut self,
        name: &str,
        inputs: impl Iterator<Item = I>,
        ours: impl Fn(I) -> A,
        theirs: impl Fn(I) -> A,
    ) {
        let begun = Instant::now();
        let (mut count, mut differ) = (0u64, 0u64);
        inputs.for_each(|input| {
            count += 1;
            let (found, wanted) = (ours(input.clone()), theirs(input.clone()));
            if !found.same(&wanted) {
                differ += 1;
                self.print_difference(differ, name, &input, &found, &wanted);
            }
        });
        self.record(name, count, differ, begun);
    }

    /// One test, as above, of inputs made by their number; the machine's processors share them.
    pub fn shared_group<I: Compared, A: Compared>(
        &mut self,
        name: &str,
        count: usize,
        input: impl Fn(usize) -> I + Sync,
        ours: impl Fn(&I) -> A + Sync,
        theirs: impl Fn(&I) -> A + Sync,
    ) {
        let begun = Instant::now();
        let (next, differ) = (AtomicUsize::new(0), Mutex::new(0));
        let work = || {
            let numbers = iter::repeat_with(|| next.fetch_add(1, Ordering::Relaxed));
            for nth in numbers.take_while(|&nth| nth < count) {
                let input = input(nth);
                let (found, wanted) = (ours(&input), theirs(&input));
                if !found.same(&wanted) {
                    let mut differ = differ.lock().expect("no thread failed");
                    *differ += 1;
                    self.print_difference(*differ, name, &input, &found, &wanted);
                }
            }
        };
        let threads = thread::available_parallelism().map_or(1, usize::from);
        thread::scope(|scope| (0..threads).for_each(|_| drop(scope.spawn(work))));
        let differ = differ.into_inner().expect("no thread failed");
        self.record(name, count as u64, differ, begun);
    }

    fn print_difference<A: Compared>(
        &self,
        nth: u64,
        name: &str,
        input: &impl Compared,
        found: &A,
        wanted: &A,
    ) {
        if nth <= PRINTED {
            println!("{name}: seed {}, input {}", self.seed, input.shown());
            println!("    ours   {}", found.shown());
            println!("    theirs {}", wanted.shown());
        }
    }

    // A group without inputs has shown nothing, so it fails.
    fn record(&mut self, name: &str, count: u64, differ: u64, begun: Instant) {
        println!("{name}: {count} inputs, {differ} differ, {:.2} s", begun.elapsed().as_secs_f64());
        if count > 0 && differ == 0 {
            self.passed += 1;
        } else {
            self.failed += 1;
        }
    }

    // A run without groups has shown nothing either.
    pub fn close(&self) -> ExitCode {
        println!("{} passed, {} failed", self.passed, self.failed);
        if self.passed > 0 && self.failed == 0 { ExitCode::SUCCESS } else { ExitCode::FAILURE }
    }
}
