//! Tests of the calls: random and adversarial sequences, reasons of refused rules, withdrawals and gap tables by hand, long rings, damaged and short tables, by the library
//! and by an independent engine, compared whole at each call; and z3 as a third opinion.
//!
//!     --seed N           the first seed (1)
//!     --count N          how many sequences (2,500)
//!     --pairs N          how many pairs of sequences that end with the same question (10,000)
//!     --long             a hundred thousand sequences, a hundred thousand pairs, more damage and more questions to z3
//!     --peer z3          the solver to ask
//!     --folder DIR       where files for it are written
//!     --show KIND SEED   prints one sequence (0 is the first kind of host/test-calls/src/sequences.rs) and what each call gives, and counts nothing
//!
//! A failing sequence is printed as short as it can be made, with its seed. A sequence counts as one. The last line is `N passed, M failed`.
#![forbid(unsafe_code)]

mod acts;
mod commands;
mod compare;
mod damage;
mod engine;
mod gaps;
mod lists;
mod office;
mod pairs;
mod reasons;
mod rings;
mod second;
mod sequences;
mod shapes;
mod shorten;
mod spoiling;
mod tests;
mod third;
mod withdrawals;

use common::tally;
use sequences::Kind;
use std::path::PathBuf;

pub struct Options {
    pub seed: u64,
    pub count: u64,
    pub pairs: u64,
    pub long: bool,
    pub peer: Option<String>,
    pub folder: PathBuf,
}

fn main() {
    tally::conclude(work)
}

/// Runs all that the options ask for. True where nothing failed.
fn work() -> bool {
    let mut options = Options { seed: 1, count: 2_500, pairs: 10_000, long: false, peer: None, folder: PathBuf::from(".") };
    let mut words = std::env::args().skip(1);
    while let Some(word) = words.next() {
        let mut value = || words.next().unwrap_or_else(|| usage(&word));
        match &word[..] {
            "--seed" => options.seed = value().parse().unwrap_or_else(|_| usage(&word)),
            "--count" => options.count = value().parse().unwrap_or_else(|_| usage(&word)),
            "--pairs" => options.pairs = value().parse().unwrap_or_else(|_| usage(&word)),
            "--long" => {
                options.long = true;
                options.count = 100_000;
                options.pairs = 100_000;
            }
            "--peer" => options.peer = Some(value()),
            "--folder" => options.folder = PathBuf::from(value()),
            "--show" => {
                let kind = Kind::ALL[value().parse::<usize>().unwrap_or_else(|_| usage(&word)) % Kind::ALL.len()];
                tests::show(kind, value().parse().unwrap_or_else(|_| usage(&word)));
                return true;
            }
            _ => usage(&word),
        }
    }
    tests::all(&options).tell()
}

fn usage(word: &str) -> ! {
    tally::usage(word, "host/test-calls/src/main.rs")
}
