//! Counting tests, and how a program of tests begins and ends.

#[derive(Default)]
pub struct Tally {
    pub passed: usize,
    pub failed: usize,
}

impl Tally {
    /// Counts one test. Where it failed, says why.
    pub fn count(&mut self, name: &str, outcome: Result<(), String>) {
        match outcome {
            Ok(()) => self.passed += 1,
            Err(why) => {
                self.failed += 1;
                println!("FAILED: {}\n{}", name, why);
            }
        }
    }

    /// Prints the count as the last line. True where nothing failed.
    pub fn tell(&self) -> bool {
        println!("{} passed, {} failed", self.passed, self.failed);
        self.failed == 0
    }
}

/// Does the work and ends the process with its verdict. Trees are as deep as their text, and so is the stack that drops them.
pub fn conclude(work: fn() -> bool) -> ! {
    let worker = std::thread::Builder::new().stack_size(256 << 20).spawn(work).expect("a thread");
    let good = worker.join().unwrap_or(false);
    std::process::exit(i32::from(!good))
}

/// An option is not known, or its value cannot be read.
pub fn usage(word: &str, head: &str) -> ! {
    eprintln!("what is {}? The head of {} says what can be asked for", word, head);
    std::process::exit(2)
}
