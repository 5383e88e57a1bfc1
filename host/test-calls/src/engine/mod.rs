//! An independent engine for the calls, written from the definitions: it keeps nothing between calls and plans from scratch, by rounds over all rules, at each
//! of them. It is meant to be obviously right, and slow. What it gives and leaves is determined, the ring of a conflict too.

mod bounds;
mod gaps;
mod rings;
mod scripts;
mod sound;

pub use gaps::{remake, yard};
pub use rings::{reason, refutes};
pub use sound::{is_sound, level, rules};

use crate::acts::Act;
use crate::office::{Lent, Office, Place, STEPS, WATCHED};
use planner::calls::{Counts, Rule};
use reader::{earliest, AMOUNT, DONE, FULL, LARGEST, MARKS, NOMARK, RULES, SHORT};
use sound::{held, largest, planned};

/// Numbers given back that scripts do not have of their own.
pub const DAMAGED: u32 = 2;
pub const STEP: u32 = 3;
pub const CONFLICT: u32 = 6;
pub const ABSENT: u32 = 12;
pub const YARD: u32 = 15;

/// What a call gives back: its number and its values, 0 where it has none. The second one of Gap may be below 0.
#[derive(Clone, Copy, PartialEq, Eq, Debug)]
pub struct Given {
    pub number: u32,
    pub one: u64,
    pub two: i64,
}

type Outcome = Result<Given, u32>;

/// Carries the call out on what is lent.
pub fn carry_out(office: &mut Office, act: &Act) -> Given {
    let outcome = match act {
        Act::Open(steps) => open(office, *steps),
        Act::Watch(rule) => watch(office, *rule),
        Act::Add(rule) => add(office, *rule),
        Act::Mark => mark(office),
        Act::Back => back(office),
        Act::Withdraw(number) => withdraw(office, *number),
        Act::Trial(rule) => trial(office, *rule),
        Act::Consequences => consequences(office),
        Act::RingCheck(rule, list) => ring_check(office, *rule, list),
        Act::LastDay => last_day(office),
        Act::Gap(x, y) => gap(office, *x, *y),
        Act::Start => scripts::start(office),
        Act::Command(text) => scripts::command(office, text),
        Act::Set(..) | Act::SetField(..) | Act::Lend(..) | Act::Hold(..) | Act::Follow(..) => {
            act.by_caller(office);
            done(0, 0)
        }
    };
    outcome.unwrap_or_else(|number| Given { number, one: 0, two: 0 })
}

fn done(one: usize, two: usize) -> Outcome {
    Ok(Given { number: DONE, one: one as u64, two: two as i64 })
}

/// CONFLICT: the ring stands in the list, and its length is given.
fn conflict(list: &mut Lent<u32>, ring: &[u32]) -> Outcome {
    list.part_mut()[..ring.len()].copy_from_slice(ring);
    Ok(Given { number: CONFLICT, one: ring.len() as u64, two: 0 })
}

/// The number is given where the need is not met.
fn need(met: bool, number: u32) -> Result<(), u32> {
    if met {
        Ok(())
    } else {
        Err(number)
    }
}

/// Every table has room for its full bound.
fn room(office: &Office) -> bool {
    use Place::*;
    [Xs, Ys, Cs, Days, Levels, Wxs, Wys, Wcs].iter().all(|place| office.lent(*place) >= place.room())
}

/// The tables are sound, and the gap table is right beside them.
fn sound(office: &Office) -> Result<(), u32> {
    need(is_sound(office) && gaps::are_right(office), DAMAGED)
}

/// A rule handed to a call: STEP, then AMOUNT.
fn rule_in_bounds(office: &Office, rule: Rule) -> Result<(), u32> {
    let steps = office.counts().steps;
    need(rule.first < steps && rule.second < steps, STEP)?;
    need(i64::from(rule.amount).abs() <= LARGEST, AMOUNT)
}

fn open(office: &mut Office, steps: u32) -> Outcome {
    need(room(office), SHORT)?;
    need(1 <= steps && steps as usize <= STEPS, STEP)?;
    empty(office, steps);
    remake(office);
    done(0, 0)
}

/// That many steps, all on day 0, and nothing else: every place for a rule is free.
fn empty(office: &mut Office, steps: u32) {
    office.counts[1] = Counts { steps, rules: 0, marks: 0, watched: 0, last: 0 };
    office.shelf.days.part_mut()[..steps as usize].fill(0);
    office.shelf.levels.part_mut()[..RULES].fill(0);
}

fn watch(office: &mut Office, rule: Rule) -> Outcome {
    need(room(office), SHORT)?;
    sound(office)?;
    rule_in_bounds(office, rule)?;
    let number = office.counts().watched as usize;
    need(number < WATCHED, FULL)?;
    let shelf = &mut office.shelf;
    shelf.wxs.part_mut()[number] = rule.first as u16;
    shelf.wys.part_mut()[number] = rule.second as u16;
    shelf.wcs.part_mut()[number] = rule.amount;
    office.counts[1].watched += 1;
    done(0, 0)
}

/// What Add and Trial need once their lists have room; the days with the rule, or nothing on a conflict.
fn with_rule(office: &Office, rule: Rule) -> Result<Option<Vec<i64>>, u32> {
    sound(office)?;
    rule_in_bounds(office, rule)?;
    need((office.counts().rules as usize) < RULES, FULL)?;
    let mut all = rules(office);
    all.push(held(rule));
    Ok(earliest(office.counts().steps as usize, all.iter().copied()))
}

/// How many steps have another day than the tables say.
fn moved(office: &Office, days: &[i64]) -> usize {
    days.iter().zip(office.shelf.days.part()).filter(|(new, old)| **new != i64::from(**old)).count()
}

fn add(office: &mut Office, rule: Rule) -> Outcome {
    need(room(office) && office.lent(Place::One) >= STEPS, SHORT)?;
    match with_rule(office, rule)? {
        None => {
            let ring = reason(office, rule);
            conflict(&mut office.one, &ring)
        }
        Some(days) => {
            let count = moved(office, &days);
            hold(office, rule, &days);
            remake(office);
            done(count, 0)
        }
    }
}

/// The rule is held under the next number, at the present level, and these are the days.
fn hold(office: &mut Office, rule: Rule, days: &[i64]) {
    let number = office.next_number() as usize;
    let level = office.counts().marks + 1;
    let shelf = &mut office.shelf;
    shelf.xs.part_mut()[number] = rule.first as u16;
    shelf.ys.part_mut()[number] = rule.second as u16;
    shelf.cs.part_mut()[number] = rule.amount;
    shelf.levels.part_mut()[number] = level as u8;
    office.counts[1].rules += 1;
    plan_is(office, days);
}

/// These are the days, and the largest of them is the last day.
fn plan_is(office: &mut Office, days: &[i64]) {
    write_days(office.shelf.days.part_mut(), days);
    office.counts[1].last = largest(days) as u32;
}

fn write_days(list: &mut [u32], days: &[i64]) {
    for (cell, day) in list.iter_mut().zip(days) {
        *cell = *day as u32;
    }
}

fn mark(office: &mut Office) -> Outcome {
    need(room(office), SHORT)?;
    sound(office)?;
    need((office.counts().marks as usize) < MARKS, FULL)?;
    office.counts[1].marks += 1;
    done(0, 0)
}

fn back(office: &mut Office) -> Outcome {
    need(room(office), SHORT)?;
    sound(office)?;
    need(office.counts().marks >= 1, NOMARK)?;
    drop_marks(office, 1);
    remake(office);
    done(0, 0)
}

/// The newest marks, that many, and the rules added while one of them was open are dropped.
fn drop_marks(office: &mut Office, fewer: usize) {
    office.counts[1].marks -= fewer as u32;
    let deeper = |number: &u32| level(office, *number) > office.counts().marks;
    let gone: Vec<u32> = office.numbers().into_iter().filter(deeper).collect();
    free(office, &gone);
}

fn withdraw(office: &mut Office, number: u32) -> Outcome {
    need(room(office), SHORT)?;
    sound(office)?;
    need(office.holds(number), ABSENT)?;
    free(office, &[number]);
    remake(office);
    done(0, 0)
}

/// The rules held under these numbers go, and the days are the earliest plan of the rest.
fn free(office: &mut Office, numbers: &[u32]) {
    for number in numbers {
        office.shelf.levels.part_mut()[*number as usize] = 0;
        office.counts[1].rules -= 1;
    }
    let days = planned(office).expect("fewer rules than sound tables had");
    plan_is(office, &days);
}

fn trial(office: &mut Office, rule: Rule) -> Outcome {
    need(room(office) && office.lent(Place::One) >= STEPS && office.lent(Place::Two) >= STEPS, SHORT)?;
    match with_rule(office, rule)? {
        None => {
            let ring = reason(office, rule);
            conflict(&mut office.two, &ring)
        }
        Some(days) => {
            write_days(office.one.part_mut(), &days);
            done(moved(office, &days), 0)
        }
    }
}

fn consequences(office: &mut Office) -> Outcome {
    let watched = office.counts().watched as usize;
    need(room(office) && office.lent(Place::One) >= watched && office.lent(Place::Two) >= watched, SHORT)?;
    sound(office)?;
    let (all, none) = bounds::split(office);
    for (list, numbers) in [(&mut office.one, &all), (&mut office.two, &none)] {
        list.part_mut()[..numbers.len()].copy_from_slice(numbers);
    }
    done(all.len(), none.len())
}

fn ring_check(office: &Office, rule: Rule, list: &[u32]) -> Outcome {
    need(room(office), SHORT)?;
    sound(office)?;
    rule_in_bounds(office, rule)?;
    done(usize::from(refutes(office, rule, list)), 0)
}

/// From the plan, and not from what the record says of it.
fn last_day(office: &Office) -> Outcome {
    need(room(office), SHORT)?;
    sound(office)?;
    let days = planned(office).expect("sound tables have a plan");
    done(largest(&days) as usize, 0)
}

/// From the rules, and not from what the gap table says of them. YARD is judged before STEP.
fn gap(office: &Office, x: u32, y: u32) -> Outcome {
    need(room(office), SHORT)?;
    sound(office)?;
    let steps = yard(office).ok_or(YARD)?;
    need(x.max(y) < steps as u32, STEP)?;
    let limit = gaps::limits(steps, &rules(office))[x as usize][y as usize];
    Ok(Given { number: DONE, one: limit.is_some().into(), two: limit.unwrap_or(0) })
}
