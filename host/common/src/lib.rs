//! What the tests and the measurements share: numbers that look random, generated scripts, making what fails short, asking other solvers, and counting.
#![forbid(unsafe_code)]

pub mod generate;
pub mod peers;
mod random;
mod shorten;
pub mod tally;

pub use random::Random;
pub use shorten::shorten;
