//! Tests of scripts: the cases written out by hand, generated scripts, and the peers. The independent solver of the crate `reader` is
//! compared byte for byte with the exported entry (where this is built with the feature `entry`) and with the program (where its command line is given).
//!
//!     --program FILE     the words of the program's command line, one to a line
//!     --peer NAME        a peer to ask: z3 or cvc5 (may be given twice)
//!     --folder DIR       where files for the peers are written
//!     --seed N           the first seed (1)
//!     --count N          how many scripts of each kind (400)
//!     --show KIND SEED   prints one generated script (0 harvest, 1 soup, 2 mutated) and its answer, and runs no test
//!
//! The last line is `N passed, M failed`.
#![forbid(unsafe_code)]

mod cases;
mod engines;
#[cfg(feature = "entry")]
mod entry;
mod peers;
mod report;
mod shorten;
mod tests;

use common::generate::Kind;
use common::tally;
use std::path::PathBuf;

pub struct Options {
    pub program: Option<Vec<String>>,
    pub peers: Vec<String>,
    pub folder: PathBuf,
    pub seed: u64,
    pub count: u64,
}

fn main() {
    tally::conclude(work)
}

/// Runs all that the options ask for. True where nothing failed.
fn work() -> bool {
    let mut options = Options { program: None, peers: Vec::new(), folder: PathBuf::from("."), seed: 1, count: 400 };
    let mut words = std::env::args().skip(1);
    while let Some(word) = words.next() {
        let mut value = || words.next().unwrap_or_else(|| usage(&word));
        match &word[..] {
            "--program" => {
                let file = value();
                let text = std::fs::read_to_string(&file).unwrap_or_else(|_| usage(&file));
                options.program = Some(text.lines().map(str::to_string).collect());
            }
            "--peer" => options.peers.push(value()),
            "--folder" => options.folder = PathBuf::from(value()),
            "--seed" => options.seed = value().parse().unwrap_or_else(|_| usage(&word)),
            "--count" => options.count = value().parse().unwrap_or_else(|_| usage(&word)),
            "--show" => {
                let kind = Kind::ALL[value().parse::<usize>().unwrap_or_else(|_| usage(&word)) % 3];
                let text = kind.script(value().parse().unwrap_or_else(|_| usage(&word)));
                let answer = reader::run(&text);
                println!("{}\n---- ends with {} and prints\n{}", String::from_utf8_lossy(&text), answer.end, String::from_utf8_lossy(&answer.out));
                return true;
            }
            _ => usage(&word),
        }
    }
    tests::all(&options).tell()
}

fn usage(word: &str) -> ! {
    tally::usage(word, "host/test-scripts/src/main.rs")
}
