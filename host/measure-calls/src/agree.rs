//! Holds the calls written by hand against the library: the same number, values, counts, tables and lists after every call, over random
//! sequences of calls, with spoiled and short tables among them.

use crate::byhand::{ABSENT, CONFLICT, NOMARK, YARD};
use crate::office::{Call, Office, Outcome, BY_HAND, LIBRARY};
use common::Random;
use planner::bounds::{MARKS, NO_LIMIT, RULES, STEPS, WATCHED, YARD_STEPS};
use planner::calls::Rule;

const SEQUENCES: u64 = 600;
const CALLS: usize = 60;

/// Carries a call out by both engines, on copies, and stops the run where they differ. Gives back what the library left, and what it gave.
pub fn both(office: &Office, call: Call) -> (Office, Outcome) {
    let (mut ours, mut theirs) = (office.clone(), office.clone());
    let (wanted, got) = (ours.carry(&LIBRARY, call), theirs.carry(&BY_HAND, call));
    assert!(wanted == got && ours == theirs, "{:?}: the library gives {:?}, the calls by hand {:?}; tables are equal: {}", call, wanted, got, ours == theirs);
    (ours, wanted)
}

/// The numbers that the calls give: DONE to NOMARK, and at the end ABSENT and YARD.
const NUMBERS: usize = NOMARK as usize + 3;

/// The place of a number among them.
fn place(number: u32) -> usize {
    match number {
        ABSENT => NUMBERS - 2,
        YARD => NUMBERS - 1,
        other => other as usize,
    }
}

/// Returns how many calls were compared, and how many of them gave each number.
pub fn check() -> (usize, [usize; NUMBERS]) {
    let (mut compared, mut given) = (0, [0; NUMBERS]);
    for seed in 0..SEQUENCES {
        let random = &mut Random::new(seed);
        let steps = match seed % 8 {
            0 => 1 + random.below(STEPS),
            1 | 2 => 1 + random.below(YARD_STEPS + 2),
            _ => 1 + random.below(9),
        };
        let mut office = Office::new(steps);
        if seed % 5 == 0 {
            fill(&mut office, random);
        }
        for _ in 0..CALLS {
            let call = any_call(&office, random);
            let number = if random.chance(120) {
                both(&spoiled(&office, random), call).1.number
            } else {
                let (after, outcome) = both(&office, call);
                office = after;
                check_ring(&office, call, outcome.number, random);
                outcome.number
            };
            compared += 1;
            given[place(number)] += 1;
        }
    }
    assert!(given.iter().all(|count| *count > 0), "some number was never given: {:?}", given);
    (compared, given)
}

/// After a refused Add its ring is checked, and a list that is nearly one.
fn check_ring(office: &Office, call: Call, number: u32, random: &mut Random) {
    if let (Call::Add(rule), CONFLICT) = (call, number) {
        let length = office.clone().carry(&LIBRARY, call).values[0] as usize;
        let mut other = office.clone();
        other.one[random.below(length)] = random.pick(&[0, office.one[0], office.one[length - 1], u32::MAX]);
        for list in [office, &other] {
            for places in [length, length - 1, length + 1] {
                both(list, Call::RingCheck(rule, places));
            }
        }
    }
}

/// Brings one table to its bound, or near it.
fn fill(office: &mut Office, random: &mut Random) {
    let last = office.counts.steps as usize - 1;
    let loose = Rule { first: 0, second: last as u32, amount: 1_000_000 };
    match random.below(3) {
        0 => (0..RULES - random.below(3)).for_each(|_| office.hold(loose)),
        1 => (0..WATCHED - random.below(3)).for_each(|_| office.watch(loose)),
        _ => office.counts.marks = (MARKS - random.below(3)) as u32,
    }
    office.remake_gaps();
}

fn any_call(office: &Office, random: &mut Random) -> Call {
    let steps = office.counts.steps as usize;
    match random.below(32) {
        0..=9 => Call::Add(any_rule(steps, random)),
        10..=13 => Call::Trial(any_rule(steps, random)),
        14..=16 => Call::Watch(any_rule(steps, random)),
        17..=18 => Call::Mark,
        19..=20 => Call::Back,
        21..=22 => Call::LastDay,
        23 if random.chance(150) => Call::Open(random.pick(&[0, steps as u32, STEPS as u32 + 1])),
        24..=26 => Call::Withdraw(any_number(office, random)),
        27..=29 => Call::Gap(any_rule(steps, random).first, any_rule(steps, random).second),
        _ => Call::Consequences,
    }
}

/// The number of a rule held, or now and then of a place that is free, or of none.
fn any_number(office: &Office, random: &mut Random) -> u32 {
    let held: Vec<u32> = (0..RULES as u32).filter(|number| office.levels[*number as usize] != 0).collect();
    if held.is_empty() || random.chance(120) {
        return random.pick(&[0, 1, office.counts.rules, RULES as u32 - 1, RULES as u32, 65_536, u32::MAX]);
    }
    random.pick(&held)
}

/// A rule over the steps, now and then one that is out of bounds.
fn any_rule(steps: usize, random: &mut Random) -> Rule {
    let last = steps as i64 - 1;
    let past = i64::from(random.chance(15));
    let amount = match random.below(12) {
        0 => random.pick(&[-1_000_001, -1_000_000, 1_000_000, 1_000_001, i32::MIN, i32::MAX]),
        _ => random.between(-9, 9 + last) as i32,
    };
    Rule { first: random.between(0, last + past) as u32, second: random.between(0, last + past) as u32, amount }
}

/// The office with one thing spoiled: a count, the last day, a level, a cell of the gap table, another cell, or a table or list with a place too few.
fn spoiled(office: &Office, random: &mut Random) -> Office {
    let mut spoiled = office.clone();
    let bound = random.pick(&[MARKS, STEPS, WATCHED, RULES]) as u32;
    let number = random.pick(&[0u32, 1, 2, 5, bound, bound + 1, u32::MAX]);
    let place = random.below(12);
    let deepest = spoiled.counts.marks as u8 + 1;
    match random.below(29) {
        0 => spoiled.counts.steps = number,
        1 => spoiled.counts.rules = number,
        2 => spoiled.counts.marks = number,
        3 => spoiled.counts.watched = number,
        4 => spoiled.xs[place] = number as u16,
        5 => spoiled.ys[place] = number as u16,
        6 => spoiled.cs[place] = number as i32,
        7 | 8 => spoiled.days[place] = spoiled.days[place].wrapping_add(1),
        9 => spoiled.days[place] = number,
        10 => spoiled.levels[place] = random.pick(&[0, 1, deepest, deepest + 1, u8::MAX]),
        11 => spoiled.wxs[place] = number as u16,
        12 => spoiled.wcs[place] = number as i32,
        13 => spoiled.xs.truncate(RULES - 1),
        14 => spoiled.cs.truncate(RULES - 1),
        15 => spoiled.days.truncate(STEPS - 1),
        16 => spoiled.levels.truncate(RULES - 1),
        17 => spoiled.wys.truncate(WATCHED - 1),
        18 => spoiled.one.truncate(random.below(STEPS + 1)),
        19 => spoiled.counts.last = random.pick(&[spoiled.counts.last.wrapping_add(1), spoiled.counts.last.wrapping_sub(1)]),
        20 => spoiled.counts.last = number,
        21 => spoiled.counts.rules = random.pick(&[spoiled.counts.rules.wrapping_add(1), spoiled.counts.rules.wrapping_sub(1)]),
        // A rule more or less, and counted.
        22 => {
            let more = spoiled.levels[place] == 0;
            spoiled.levels[place] = if more { 1 } else { 0 };
            spoiled.counts.rules = if more { spoiled.counts.rules + 1 } else { spoiled.counts.rules - 1 };
        }
        23 => spoiled.levels[RULES - 1] = random.pick(&[0, 1, u8::MAX]),
        24..=27 => {
            let side = random.pick(&[YARD_STEPS, YARD_STEPS.min(office.counts.steps as usize)]);
            let cell = &mut spoiled.gaps[random.below(side)][random.below(side)];
            *cell = random.pick(&[cell.wrapping_add(1), cell.wrapping_sub(1), 0, NO_LIMIT, i64::MIN]);
        }
        _ => spoiled.two.truncate(random.below(STEPS + 1)),
    }
    spoiled
}
