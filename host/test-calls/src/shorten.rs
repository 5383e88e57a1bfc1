//! Makes a failing sequence short: runs of calls are left out, long ones first, as long as what stays still fails.

use crate::acts::Act;
use crate::compare::compare_all;
use crate::sequences::rule;
use common::shorten;
use std::ops::Range;
use std::time::{Duration, Instant};

/// At most so long.
const PATIENCE: Duration = Duration::from_secs(30);

/// Of a longer sequence the beginning and the end are printed.
const SHOWN: usize = 80;

/// The shortest sequence found that fails from the office of the seed, and how it fails at its last call. Nothing where the sequence does not fail so.
fn shortest(seed: u64, acts: &[Act]) -> Option<(Vec<Act>, String)> {
    let began = Instant::now();
    let fails = |mut acts: Vec<Act>| {
        let (last, how) = compare_all(seed, &acts).err()?;
        acts.truncate(last + 1);
        Some((acts, how))
    };
    let (failing, mut how) = fails(acts.to_vec())?;
    let shorter = |acts: &[Act], run: Range<usize>| {
        let (shorter, now) = without(acts, run).into_iter().find_map(fails)?;
        how = now;
        Some(shorter)
    };
    // The first call opens the tables.
    let short = shorten(failing, 1, shorter, || began.elapsed() < PATIENCE);
    Some(plainer((short, how), &fails))
}

/// The sequence without a run of calls; the same with the rule numbers in later lists and withdrawals lowered, as if each rule that is left out had been held before
/// them; with the run's marks alone; and with the caller writing as many rules that say nothing.
fn without(acts: &[Act], run: Range<usize>) -> Vec<Vec<Act>> {
    let (at, length) = (run.start, run.len());
    let mut rest = acts.to_vec();
    let (mut held, mut watched, mut marks) = (0, 0, 0);
    for act in rest.drain(run) {
        match act {
            Act::Add(_) => held += 1,
            Act::Hold(_, times) => held += times,
            Act::Watch(_) => watched += 1,
            Act::Follow(_, times) => watched += times,
            Act::Mark => marks += 1,
            _ => (),
        }
    }
    let mut all = vec![rest.clone()];
    if held > 0 && rest[at..].iter().any(|act| matches!(act, Act::RingCheck(..) | Act::Withdraw(_))) {
        let lower = |number: &mut u32| *number = number.saturating_sub(held as u32);
        let mut lowered = rest.clone();
        for act in &mut lowered[at..] {
            match act {
                Act::RingCheck(_, list) => list.iter_mut().for_each(lower),
                Act::Withdraw(number) => lower(number),
                _ => (),
            }
        }
        all.push(lowered);
    }
    if 0 < marks && marks < length {
        let mut marked = rest.clone();
        marked.splice(at..at, vec![Act::Mark; marks]);
        all.push(marked);
    }
    if length > 2 && held + watched > 2 {
        let nothing = rule(0, 0, 0);
        rest.splice(at..at, [Act::Hold(nothing, held), Act::Follow(nothing, watched)]);
        all.push(rest);
    }
    all
}

/// The last call with a shorter list, where that fails too.
fn plainer(mut short: (Vec<Act>, String), fails: &dyn Fn(Vec<Act>) -> Option<(Vec<Act>, String)>) -> (Vec<Act>, String) {
    while let Some(Act::RingCheck(rule, list)) = short.0.last().cloned() {
        let fewer = |at: usize| {
            let mut list = list.clone();
            list.remove(at);
            let mut acts = short.0.clone();
            acts.pop();
            acts.push(Act::RingCheck(rule, list));
            fails(acts)
        };
        match (0..list.len()).rev().find_map(fewer) {
            Some(shorter) => short = shorter,
            None => break,
        }
    }
    short
}

/// What is printed of a failing sequence.
pub fn report(seed: u64, acts: &[Act], why: &str) -> String {
    let (short, how) = shortest(seed, acts).unwrap_or_else(|| (acts.to_vec(), format!("{} (not seen again)", why)));
    let mut lines: Vec<String> = short.iter().map(|act| format!("    {}", act)).collect();
    if lines.len() > SHOWN {
        lines.splice(SHOWN / 2..lines.len() - SHOWN / 2, ["    ..".to_string()]);
    }
    format!("  the office of seed {}, and {} of {} calls:\n{}\n  at the last one: {}", seed, short.len(), acts.len(), lines.join("\n"), how)
}
