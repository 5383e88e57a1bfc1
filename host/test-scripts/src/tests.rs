//! All tests, in turn.

use crate::engines::{last_error, Engine, Program};
use crate::report::{agrees, same};
use crate::{cases, peers, Options};
use common::generate::Kind;
use common::peers::ask;
use common::tally::Tally;
use reader::Answer;
use std::collections::BTreeMap;

pub fn all(options: &Options) -> Tally {
    let mut tally = Tally::default();
    let began = std::time::Instant::now();
    let took = |what: &str| println!("host: {} s so far: {}", began.elapsed().as_secs(), what);
    by_hand(options, &mut tally);
    took("cases written by hand");
    examples(options, &mut tally);
    room(&mut tally);
    took("little room");
    for kind in Kind::ALL {
        generated(kind, options, &mut tally);
        took(kind.name());
    }
    ask_peers(options, &mut tally);
    took("peers");
    tally
}

/// The engines that answer in this process.
fn in_process() -> Vec<Box<dyn Engine>> {
    #[cfg(feature = "entry")]
    return vec![Box::new(crate::entry::Entry)];
    #[cfg(not(feature = "entry"))]
    return Vec::new();
}

fn program(options: &Options, chunk: usize) -> Option<Program> {
    options.program.as_ref().map(|words| Program { words: words.clone(), chunk })
}

/// Every engine: those of this process, and the program, which is given its text at once.
fn engines(options: &Options) -> Vec<Box<dyn Engine>> {
    let mut engines = in_process();
    if let Some(program) = program(options, 1 << 20) {
        engines.push(Box::new(program));
    }
    engines
}

/// Every case written by hand, by every engine; the program is given its text in pieces of several sizes.
fn by_hand(options: &Options, tally: &mut Tally) {
    let cases = cases::all();
    for (at, case) in cases.iter().enumerate() {
        let wanted = Answer { out: case.out.clone(), end: last_error(&case.out) };
        tally.count(&format!("case by the independent solver: {}", case.name), same(&wanted, &Ok(reader::run(&case.script))));
        for engine in in_process() {
            tally.count(&format!("case by the {}: {}", engine.name(), case.name), same(&wanted, &engine.run(&case.script)));
        }
        if let Some(engine) = program(options, [1 << 20, 4096, 700, 61][at % 4]) {
            tally.count(&format!("case by the program: {}", case.name), same(&wanted, &engine.run(&case.script)));
        }
    }
    println!("host: {} cases written by hand", cases.len());
}

/// The scripts of `examples/`, each against what it prints by hand.
fn examples(options: &Options, tally: &mut Tally) {
    let files = std::fs::read_dir("examples").map(|all| all.flatten().map(|file| file.path()).collect()).unwrap_or_else(|_| Vec::new());
    let scripts: Vec<_> = files.into_iter().filter(|path| path.extension().map_or(false, |end| end == "smt2")).collect();
    tally.count("examples/ has scripts", if scripts.is_empty() { Err("  none".to_string()) } else { Ok(()) });
    for path in scripts {
        let text = std::fs::read(&path).unwrap_or_default();
        let wanted = Answer { out: std::fs::read(path.with_extension("out")).unwrap_or_default(), end: reader::DONE };
        tally.count(&format!("{} by the independent solver", path.display()), same(&wanted, &Ok(reader::run(&text))));
        for engine in engines(options) {
            tally.count(&format!("{} by the {}", path.display(), engine.name()), same(&wanted, &engine.run(&text)));
        }
    }
}

/// The entry with little room: SHORT where fewer than 16,384 bytes are left before a command.
#[cfg(feature = "entry")]
fn room(tally: &mut Tally) {
    let list = format!("(get-value ({}))", vec!["x"; cases::ASKED].join(" "));
    let long = format!("{}(check-sat)(foo){}", cases::XY, list.repeat(100));
    let many = format!("{}{}", cases::XY, "(check-sat) ;c\n".repeat(3000));
    let texts = ["", " ; nothing\n", "(check-sat)", "x", "(exit)", cases::XY, &long, &many, "(foo)(foo)(", "(foo)(foo);"];
    for text in texts {
        for room in [0, 1, 12, 16_383, 16_384, 16_385, 16_387, 16_388, 16_396, 16_407, 16_408, 16_409, 17_000, 20_000, 32_768, 100_000] {
            let wanted = reader::run_within(text.as_bytes(), room);
            let got = crate::entry::Entry.run_within(text.as_bytes(), room);
            tally.count(&format!("entry with {} bytes: {}", room, crate::report::quote(text.as_bytes())), same(&wanted, &got));
        }
    }
}

#[cfg(not(feature = "entry"))]
fn room(_tally: &mut Tally) {}

/// Generated scripts of one kind, each by every engine. Each engine counts as one test, and so does that the scripts are of many sorts.
fn generated(kind: Kind, options: &Options, tally: &mut Tally) {
    let seeds = options.seed..options.seed + options.count;
    let mut seen: BTreeMap<String, usize> = BTreeMap::new();
    for seed in seeds.clone() {
        let answer = reader::run(&kind.script(seed));
        *seen.entry(format!("end {}", answer.end)).or_insert(0) += 1;
        for word in ["sat", "unsat", "unsupported"] {
            *seen.entry(word.to_string()).or_insert(0) += String::from_utf8_lossy(&answer.out).lines().filter(|line| *line == word).count();
        }
    }
    println!("host: {}, seeds {} to {}: {:?}", kind.name(), seeds.start, seeds.end - 1, seen);
    if options.count >= 400 {
        tally.count(&format!("{} are of many sorts", kind.name()), all_seen(kind, &seen));
    }
    for engine in engines(options) {
        let differing = seeds.clone().find_map(|seed| {
            let outcome = agrees(&kind.script(seed), &|text| engine.run(text));
            outcome.err().map(|why| format!("  seed {}\n{}", seed, why))
        });
        tally.count(&format!("{} by the {}", kind.name(), engine.name()), differing.map_or(Ok(()), Err));
    }
}

/// What a few hundred scripts of a kind must have among them.
fn all_seen(kind: Kind, seen: &BTreeMap<String, usize>) -> Result<(), String> {
    let wanted: &[&str] = match kind {
        Kind::Harvest => &["end 0", "end 4", "end 5", "end 7", "end 9", "end 10", "end 11", "sat", "unsat", "unsupported"],
        Kind::Soup => &["end 0", "end 4", "end 5", "end 7", "end 8", "end 9", "end 10", "end 11", "sat", "unsat", "unsupported"],
        Kind::Mutated => &["end 0", "end 8", "end 9", "end 10", "sat", "unsat", "unsupported"],
    };
    let missing: Vec<_> = wanted.iter().filter(|word| seen.get(**word).copied().unwrap_or(0) == 0).collect();
    if missing.is_empty() {
        return Ok(());
    }
    Err(format!("  never seen: {:?}", missing))
}

/// Every peer, on every generated script that it can read; a good part of the harvests must be among them.
fn ask_peers(options: &Options, tally: &mut Tally) {
    if options.peers.is_empty() {
        return;
    }
    let engines = in_process();
    let run = |text: &[u8]| engines.first().map_or_else(|| Ok(reader::run(text)), |engine| engine.run(text));
    let seeds = options.seed..options.seed + options.count;
    let scripts = Kind::ALL.into_iter().flat_map(|kind| seeds.clone().map(move |seed| (format!("script {}", seed), kind.script(seed))));
    let largest = cases::all_steps().map(|(name, text)| (name.to_string(), text.into_bytes()));
    let questions: Vec<_> = largest.into_iter().chain(scripts).filter_map(|(name, text)| peers::question(name, &text, &run)).collect();
    let enough = if questions.len() as u64 * 4 >= options.count { Ok(()) } else { Err(format!("  only {} scripts", questions.len())) };
    tally.count("peers are asked enough", enough);
    for peer in &options.peers {
        let outcome = ask(peer, &questions, &options.folder.join(format!("questions-{}.smt2", peer)));
        if let Ok(agreed) = outcome {
            println!("host: {} was asked {} scripts, and agrees in {} answers", peer, questions.len(), agreed);
        }
        tally.count(&format!("{} agrees", peer), outcome.map(|_| ()));
    }
}
