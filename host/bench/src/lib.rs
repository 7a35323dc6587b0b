//! What the comparison, the speed table and the stored answers share: inputs from a seed, the library's leaves, and
//! the Rust that was ported where it was built.
pub mod inputs;
#[cfg(oracle)]
pub mod oracle;
pub mod probe;
