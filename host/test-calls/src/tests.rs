//! All tests, in turn.

use crate::acts::Act;
use crate::compare::Both;
use crate::engine::{Given, CONFLICT};
use crate::office::{Lent, Office};
use crate::sequences::{Kind, Writer};
use crate::shorten::report;
use crate::{damage, gaps, pairs, reasons, rings, third, withdrawals, Options};
use common::peers::Question;
use common::tally;
use std::collections::BTreeMap;

/// Failures beyond these are counted and not shortened.
const SHOWN: usize = 5;

#[derive(Default)]
pub struct Tally {
    tests: tally::Tally,
    /// How often each call gave each number.
    seen: BTreeMap<(&'static str, u32), u64>,
}

impl Tally {
    pub fn count(&mut self, name: &str, outcome: Result<(), String>) {
        self.tests.count(name, outcome);
    }

    pub fn tell(&self) -> bool {
        self.tests.tell()
    }

    /// Counts one sequence, which failed where there is a reason. The first failing ones are made short and printed.
    pub fn count_sequence(&mut self, name: &str, seed: u64, acts: &[Act], failure: Option<String>) {
        match failure {
            None => self.tests.passed += 1,
            Some(why) if self.tests.failed < SHOWN => self.count(name, Err(report(seed, acts, &why))),
            Some(_) => self.tests.failed += 1,
        }
    }

    /// Notes what a call gave where there was something else to count.
    fn note_further(&mut self, further: Option<&'static str>, given: Given) {
        if let Some(further) = further {
            *self.seen.entry((further, given.number)).or_insert(0) += 1;
        }
    }

    /// Notes what a call gave.
    pub fn note(&mut self, act: &Act, given: Given) {
        if let Some(call) = act.call() {
            *self.seen.entry((call, given.number)).or_insert(0) += 1;
            let further = match act {
                Act::RingCheck(..) if given.number == 0 && given.one == 1 => "Ring check, yes",
                Act::LastDay if given.number == 0 && given.one > 0 => "Last day, not 0",
                Act::Gap(x, y) if given.number == 0 && x != y => match (given.one, given.two) {
                    (0, _) => "Gap, no limit",
                    (_, limit) if limit < 0 => "Gap, a limit below 0",
                    _ => "Gap, another limit",
                },
                Act::Add(_) | Act::Trial(_) if given.number == CONFLICT => match given.one {
                    0..=2 => "Conflict, up to 2 rules",
                    3..=15 => "Conflict, 3 to 15 rules",
                    16..=255 => "Conflict, 16 to 255 rules",
                    _ => "Conflict, 256 rules and more",
                },
                _ => return,
            };
            self.note_further(Some(further), given);
        }
    }
}

pub fn all(options: &Options) -> Tally {
    let mut tally = Tally::default();
    let began = std::time::Instant::now();
    let took = |what: &str| println!("calls: {} s so far: {}", began.elapsed().as_secs(), what);
    println!("calls: seeds {} to {}", options.seed, options.seed + options.count - 1);
    let questions = generated(options, &mut tally);
    took("sequences");
    reasons::all(options.seed, &mut tally);
    took("reasons");
    withdrawals::all(&mut tally);
    gaps::all(&mut tally);
    rings::all(&mut tally);
    took("long rings");
    damage::all(options, &mut tally);
    took("damaged and short tables");
    pairs::all(options.seed, options.pairs, &mut tally);
    took("pairs");
    every_answer(options.count >= 1_000, &mut tally);
    if let Some(peer) = &options.peer {
        tally.count("z3 agrees", third::ask(peer, &questions, &options.folder));
        took("z3");
    }
    tally
}

/// The sequences of all seeds, and the questions to z3 that come from their ends.
fn generated(options: &Options, tally: &mut Tally) -> Vec<Question> {
    let most = if options.long { 4_000 } else { 300 };
    let mut questions = Vec::new();
    let mut times: BTreeMap<String, (u32, std::time::Duration)> = BTreeMap::new();
    for seed in options.seed..options.seed + options.count {
        let kind = Kind::of(seed);
        let began = std::time::Instant::now();
        let (acts, both, failure) = sequence(kind, seed, &mut |act, given, further| {
            tally.note(act, given);
            tally.note_further(further, given);
        });
        if failure.is_none() && questions.len() < most {
            questions.extend(third::question(seed, &both));
        }
        let name = format!("sequence of seed {} ({:?})", seed, kind);
        tally.count_sequence(&name, seed, &acts, failure);
        let time = times.entry(format!("{:?}", kind)).or_default();
        *time = (time.0 + 1, time.1 + began.elapsed());
    }
    for (kind, (count, time)) in times {
        println!("calls: {} sequences of the kind {}, {} ms", count, kind, time.as_millis());
    }
    questions
}

/// Writes and compares one sequence: its acts, what is lent at its end, and how it failed at the last act, if it did.
fn sequence(kind: Kind, seed: u64, note: &mut dyn FnMut(&Act, Given, Option<&'static str>)) -> (Vec<Act>, Both, Option<String>) {
    let mut both = Both::new(seed);
    let mut writer = Writer::new(kind, seed);
    let mut acts = Vec::new();
    while let Some(act) = writer.next(both.office()) {
        acts.push(act.clone());
        let before = Before::of(both.office(), &act);
        match both.make(&act) {
            Ok(given) => {
                writer.note(&act, given, both.office());
                note(&act, given, before.further(&act, both.office()));
            }
            Err(why) => return (acts, both, Some(why)),
        }
    }
    (acts, both, None)
}

/// What is kept of an office to say what a call met there and did.
struct Before {
    /// Whether a place below some rule held is free.
    between: bool,
    /// The days, before a Withdraw.
    days: Option<Lent<u32>>,
}

impl Before {
    fn of(office: &Office, act: &Act) -> Before {
        let withdraws = matches!(act, Act::Withdraw(_));
        Before { between: office.next_number() < office.counts().rules, days: withdraws.then(|| office.shelf.days.clone()) }
    }

    /// What is counted of a call beside its answer.
    fn further(&self, act: &Act, after: &Office) -> Option<&'static str> {
        match act {
            Act::Add(_) if self.between => Some("Add at a free place between rules"),
            Act::Command(_) if self.between => Some("command over a free place between rules"),
            _ if self.days.as_ref().map_or(false, |days| *days != after.shelf.days) => Some("Withdraw, a day moves"),
            _ => None,
        }
    }
}

/// Prints one sequence.
pub fn show(kind: Kind, seed: u64) {
    let (_, both, failure) = sequence(kind, seed, &mut |act, given, _| println!("{} -> {}, {}, {}", act, given.number, given.one, given.two));
    println!("{:?}, {:?}, {:?}", both.office().counts(), both.office().record(), failure);
}

/// Every number that a call can give was given, where there were enough sequences. One test for each call.
fn every_answer(enough: bool, tally: &mut Tally) {
    const CAN: [(&str, &[u32]); 25] = [
        ("Open", &[0, 1, 3]),
        ("Watch", &[0, 1, 2, 3, 4, 5]),
        ("Add", &[0, 1, 2, 3, 4, 5, 6]),
        ("Mark", &[0, 1, 2, 5]),
        ("Back", &[0, 1, 2, 7]),
        ("Withdraw", &[0, 1, 2, 12]),
        ("Withdraw, a day moves", &[0]),
        ("Add at a free place between rules", &[0, 6]),
        ("command over a free place between rules", &[0, 5]),
        ("Trial", &[0, 1, 2, 3, 4, 5, 6]),
        ("Conflict, up to 2 rules", &[6]),
        ("Conflict, 3 to 15 rules", &[6]),
        ("Conflict, 16 to 255 rules", &[6]),
        ("Conflict, 256 rules and more", &[6]),
        ("Consequences", &[0, 1, 2]),
        ("Ring check", &[0, 1, 2, 3, 4]),
        ("Ring check, yes", &[0]),
        ("Last day", &[0, 1, 2]),
        ("Last day, not 0", &[0]),
        ("Gap", &[0, 1, 2, 3, 15]),
        ("Gap, no limit", &[0]),
        ("Gap, a limit below 0", &[0]),
        ("Gap, another limit", &[0]),
        ("start", &[0, 1]),
        ("command", &[0, 1, 2, 4, 5, 7, 8, 9, 10, 11]),
    ];
    for (call, numbers) in CAN {
        let given: Vec<String> = tally.seen.iter().filter(|(key, _)| key.0 == call).map(|(key, times)| format!("{}: {}", key.1, times)).collect();
        println!("calls: {} gave {}", call, given.join(", "));
        if !enough {
            continue;
        }
        let missing: Vec<_> = numbers.iter().filter(|number| !tally.seen.contains_key(&(call, **number))).collect();
        tally.count(&format!("every answer of {}", call), if missing.is_empty() { Ok(()) } else { Err(format!("  never given: {:?}", missing)) });
    }
}
