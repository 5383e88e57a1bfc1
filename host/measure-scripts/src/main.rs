//! Measures programs over the same script files, as processes, in turn within one run, and prints how many times longer each takes than the first.
//!
//!     measure-scripts FOLDER FILE.. [--ways FILE..]
//!
//! A FILE names a program: its name on the first line, then the words of its command line, one to a line; where one word is @, the script's path stands
//! for it, else the script is standard input. After `--ways` stand other ways to the first program, and what bounds them: they are measured on small scripts,
//! with how many times as long the fastest of the others takes.
//!
//! Scripts are written into FOLDER. Processes are started by posix_spawn, which is what the standard library uses here.
#![forbid(unsafe_code)]

use std::borrow::Borrow;
use std::fs::File;
use std::path::{Path, PathBuf};
use std::process::{Command, Stdio};
use std::time::{Duration, Instant};

const SIZES: [usize; 4] = [1_000, 4_000, 16_000, 65_536];
const FAMILIES: [(&str, fn(usize) -> String); 3] = [("sat", sat_heavy), ("conflict", conflict_heavy), ("reversed", reversed_chain)];

fn main() {
    let mut words = std::env::args().skip(1);
    let folder = PathBuf::from(words.next().expect("a folder"));
    let read = |file: String| Program::read(Path::new(&file));
    let programs: Vec<Program> = words.by_ref().take_while(|word| word != "--ways").map(read).collect();
    let ways: Vec<Program> = words.map(read).collect();
    let empty = folder.join("empty.smt2");
    std::fs::write(&empty, "").expect("a script is written");
    println!("an empty script: {}", row(&programs, &measure(&programs, &empty)));
    println!("{:<12}{:>8}  times as long as {} (the shortest of several runs, in turn)", "script", "bytes", programs[0].name);

    let mut least: Vec<(usize, f64)> = Vec::new();
    let mut small: Vec<PathBuf> = Vec::new();
    for (family, write) in FAMILIES {
        let mut paths = vec![(0, empty.clone())];
        for size in SIZES {
            let path = folder.join(format!("{}-{}.smt2", family, size));
            let text = write(size);
            assert!(text.len() <= size, "a script of {} bytes for {}", text.len(), size);
            std::fs::write(&path, &text).expect("a script is written");
            agree(&programs, &path);
            let times = measure(&programs, &path);
            println!("{:<12}{:>8}  {}", family, text.len(), row(&programs, &times));
            let faster = times[1..].iter().min().map_or(0.0, |peer| ratio(*peer, times[0]));
            least.push((size, faster));
            if size == SIZES[0] {
                small.push(path.clone());
            }
            paths.push((text.len(), path));
        }
        println!("{:<12}          {}", "", growth(&programs[0], &paths));
    }
    for size in SIZES {
        let worst = least.iter().filter(|(of, _)| *of == size).map(|(_, by)| *by).fold(f64::INFINITY, f64::min);
        println!("about {} bytes: the faster peer takes at least {:.1} times as long", size, worst);
    }
    compare_ways(&programs, &ways, &small);
}

/// The ways to the first program, on the small scripts: the shortest time of each over all of them, and at least how many times as long the fastest other program takes.
fn compare_ways(programs: &[Program], ways: &[Program], scripts: &[PathBuf]) {
    let all: Vec<&Program> = ways.iter().chain(programs).collect();
    let times: Vec<Vec<Duration>> = scripts.iter().map(|script| measure(&all, script)).collect();
    for (at, way) in ways.iter().enumerate() {
        let shortest = times.iter().map(|of| of[at]).min().unwrap_or_default();
        let by = times.iter().map(|of| of[ways.len() + 1..].iter().min().map_or(0.0, |peer| ratio(*peer, of[at]))).fold(f64::INFINITY, f64::min);
        println!("about {} bytes by {}: {:.2} ms; the faster peer takes at least {:.1} times as long", SIZES[0], way.name, shortest.as_secs_f64() * 1e3, by);
    }
}

/// How a program's time above the first script's, an empty one, grows with the bytes: the shortest of many runs, all scripts in turn.
fn growth(program: &Program, scripts: &[(usize, PathBuf)]) -> String {
    let mut times = vec![Duration::MAX; scripts.len()];
    let began = Instant::now();
    for round in 0..200 {
        if round >= 5 && began.elapsed() > Duration::from_secs(5) {
            break;
        }
        for ((_, path), shortest) in scripts.iter().zip(&mut times) {
            *shortest = program.time(path).min(*shortest);
        }
    }
    let above: Vec<Duration> = times[1..].iter().map(|time| time.saturating_sub(times[0])).collect();
    let sizes: Vec<usize> = scripts[1..].iter().map(|(bytes, _)| *bytes).collect();
    let parts: Vec<String> = sizes.iter().zip(&above).map(|(bytes, time)| format!("{} us for {} bytes", time.as_micros(), bytes)).collect();
    let last = sizes.len() - 1;
    // Less than this is lost in the noise of starting a process.
    let first = above.iter().position(|time| *time >= Duration::from_micros(10)).unwrap_or(last);
    let (bytes, time) = (sizes[last] as f64 / sizes[first] as f64, ratio(above[last], above[first]));
    format!("above an empty script: {}; from {} bytes on {:.0} times the bytes take {:.0} times the time", parts.join(", "), sizes[first], bytes, time)
}

fn ratio(one: Duration, other: Duration) -> f64 {
    one.as_secs_f64() / other.as_secs_f64().max(1e-6)
}

fn row(programs: &[Program], times: &[Duration]) -> String {
    let mut text = format!("{} {:.2} ms", programs[0].name, times[0].as_secs_f64() * 1e3);
    for (program, time) in programs.iter().zip(times).skip(1) {
        text += &format!("   {} x {:.1}", program.name, ratio(*time, times[0]));
    }
    text
}

struct Program {
    name: String,
    words: Vec<String>,
}

impl Program {
    fn read(file: &Path) -> Program {
        let text = std::fs::read_to_string(file).expect("a program's words");
        let mut lines = text.lines().map(str::to_string);
        Program { name: lines.next().expect("a name"), words: lines.collect() }
    }

    fn command(&self, script: &Path) -> Command {
        let mut command = Command::new(&self.words[0]);
        command.stdin(Stdio::null()).stderr(Stdio::null());
        for word in &self.words[1..] {
            if word == "@" {
                command.arg(script);
            } else {
                command.arg(word);
            }
        }
        if !self.words.contains(&"@".to_string()) {
            command.stdin(File::open(script).expect("a script"));
        }
        command
    }

    fn time(&self, script: &Path) -> Duration {
        let mut command = self.command(script);
        command.stdout(Stdio::null());
        let began = Instant::now();
        command.spawn().and_then(|mut child| child.wait()).expect("a process");
        began.elapsed()
    }

    /// The lines `sat` and `unsat` that it prints.
    fn verdicts(&self, script: &Path) -> Vec<String> {
        let out = self.command(script).output().expect("a process").stdout;
        String::from_utf8_lossy(&out).lines().filter(|line| *line == "sat" || *line == "unsat").map(str::to_string).collect()
    }
}

/// Stops the run where two programs answer differently, or nothing at all.
fn agree(programs: &[Program], script: &Path) {
    let first = programs[0].verdicts(script);
    assert!(!first.is_empty(), "{} answers nothing to {}", programs[0].name, script.display());
    for other in &programs[1..] {
        assert!(other.verdicts(script) == first, "{} and {} differ on {}", programs[0].name, other.name, script.display());
    }
}

/// The shortest time of each program: other work on the machine only lengthens one. In every round each program in turn runs five times, or
/// until 50 ms have passed; fewer rounds where they take long.
fn measure<P: Borrow<Program>>(programs: &[P], script: &Path) -> Vec<Duration> {
    let mut times = vec![Duration::MAX; programs.len()];
    let began = Instant::now();
    for round in 0..10 {
        if round >= 3 && began.elapsed() > Duration::from_secs(6) {
            break;
        }
        for (program, shortest) in programs.iter().zip(&mut times) {
            let turn = Instant::now();
            for run in 0..5 {
                if run == 0 || turn.elapsed() < Duration::from_millis(50) {
                    *shortest = program.borrow().time(script).min(*shortest);
                }
            }
        }
    }
    times
}

/// Adds pieces to a beginning as long as they fit, with `end` after them.
fn fill(size: usize, begun: String, mut piece: impl FnMut(usize) -> String, end: &str) -> String {
    let mut text = begun;
    for number in 0.. {
        let more = piece(number);
        if text.len() + more.len() + end.len() > size {
            break;
        }
        text += &more;
    }
    text + end
}

/// The logic and so many names that they take a fourth of the script.
fn names(size: usize) -> (usize, String) {
    let count = (size / 100).clamp(6, 250);
    let declared: String = (0..count).map(|i| format!("(declare-fun step{} () Int)\n", i)).collect();
    (count, format!("(set-logic QF_IDL)\n{}", declared))
}

/// A number that looks random and is the same in every run.
fn mixed(number: usize) -> usize {
    let turned = (number as u64 + 1).wrapping_mul(0x9E37_79B9_7F4A_7C15);
    ((turned ^ (turned >> 29)).wrapping_mul(0xBF58_476D_1CE4_E5B9) >> 33) as usize
}

/// Rules that hidden days keep, a check after every fourth, now and then the days of some steps.
fn sat_heavy(size: usize) -> String {
    let (count, begun) = names(size);
    let day = |step: usize| (mixed(step) % 300) as i64;
    let rule = |number: usize| {
        let (x, y) = (mixed(3 * number) % count, mixed(3 * number + 1) % count);
        let (x, y) = if day(x) <= day(y) { (x, y) } else { (y, x) };
        let least = (day(y) - day(x) - (mixed(3 * number + 2) % 9) as i64).max(0);
        let check = match number % 16 {
            15 => format!("(check-sat)\n(get-value (step{} step{} step0))\n", x, y),
            3 | 7 | 11 => "(check-sat)\n".to_string(),
            _ => String::new(),
        };
        format!("(assert (>= (- step{} step{}) {}))\n{}", y, x, least, check)
    };
    fill(size, begun, rule, "(check-sat)\n")
}

/// A season of rules, then one attempt after the other, each between a push and a pop: three in four contradict them.
fn conflict_heavy(size: usize) -> String {
    let (count, mut begun) = names(size);
    for step in 1..count {
        begun += &format!("(assert (<= (- step{} step{}) (- 2)))\n", mixed(step) % step, step);
    }
    let attempt = |number: usize| {
        let (later, other) = (1 + mixed(number) % (count - 1), 1 + mixed(number + 7777) % (count - 1));
        let sooner = mixed(later) % later;
        let limit = if number % 4 == 3 { 5000 } else { 2 };
        format!("(push 1)\n(assert (<= (- step0 step{}) (- 9)))\n(assert (< (- step{} step{}) {}))\n(check-sat)\n(pop 1)\n", other, later, sooner, limit)
    };
    fill(size, begun, attempt, "(check-sat)\n")
}

/// Chains from the last step to the first, a check after each rule: each rule moves all steps behind it. Every chain asks for more than the one before.
fn reversed_chain(size: usize) -> String {
    let (count, begun) = names(size);
    let rule = |number: usize| {
        let step = count - 1 - number % (count - 1);
        format!("(assert (<= (- step{} step{}) (- {})))\n(check-sat)\n", step - 1, step, 1 + number / (count - 1))
    };
    fill(size, begun, rule, "")
}
