//! Choices from a stream of the seed.
use super::chromas::unit;
use super::random::patterns;

/// An endless run of choices.
pub struct Dice(Box<dyn Iterator<Item = u64>>);

impl Dice {
    pub fn new(seed: u64, stream: u64) -> Self {
        Self(Box::new(patterns(seed, stream)))
    }

    fn pattern(&mut self) -> u64 {
        self.0.next().expect("patterns never end")
    }

    /// From 0 up to, not including, the limit.
    pub fn below(&mut self, limit: usize) -> usize {
        (self.pattern() >> 16) as usize % limit
    }

    pub fn one_in(&mut self, count: usize) -> bool {
        self.below(count) == 0
    }

    pub fn one_of<A: Copy>(&mut self, choices: &[A]) -> A {
        choices[self.below(choices.len())]
    }

    /// From 0 up to, not including, 1.
    pub fn unit(&mut self) -> f32 {
        unit(self.pattern())
    }

    /// A key number.
    pub fn key(&mut self) -> u8 {
        self.below(24) as u8
    }

    /// One to four keys, for lists in which they come again and again.
    pub fn few_keys(&mut self) -> Vec<u8> {
        (0..1 + self.below(4)).map(|_| self.key()).collect()
    }

    pub fn shuffle<A>(&mut self, list: &mut [A]) {
        for place in 1..list.len() {
            list.swap(place, self.below(place + 1));
        }
    }
}
