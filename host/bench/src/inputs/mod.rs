//! Inputs from a seed, the same in every run.
pub mod chromas;
pub mod dice;
pub mod engines;
pub mod random;
pub mod tracks;
