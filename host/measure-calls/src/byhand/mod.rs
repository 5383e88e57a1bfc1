//! The calls written by hand in Rust, as a baseline: the same tables, the same checks, the same way of working as the proved library has, in
//! plain safe Rust. `agree.rs` holds them against the library.

mod chains;
pub mod gaps;
mod ring;
mod shortest;
mod sound;
mod split;
mod spread;
mod waiting;

use chains::Chains;
use planner::bounds::{MARKS, NO_LIMIT, RULES, STEPS, WATCHED};
use planner::calls::{Counts, Rule, Tables};
use spread::Spread;

/// The numbers given back.
pub const DONE: u32 = 0;
const SHORT: u32 = 1;
const DAMAGED: u32 = 2;
const STEP: u32 = 3;
const AMOUNT: u32 = 4;
pub const FULL: u32 = 5;
pub const CONFLICT: u32 = 6;
pub const NOMARK: u32 = 7;
pub const ABSENT: u32 = 12;
pub const YARD: u32 = 15;

/// The rules held: their chains, and the place past the last of them.
struct Held {
    chains: Chains<RULES>,
    end: usize,
}

impl Held {
    fn new() -> Held {
        Held { chains: Chains::new(), end: 0 }
    }

    /// The lowest free place; as many as there are where all are taken.
    fn next(&self, t: &Tables) -> usize {
        t.levels[..self.end].iter().position(|level| *level == 0).unwrap_or(self.end)
    }
}

/// Tests the room, the tables and the gap table; `held`, which has none yet, gets the rules held.
fn test(counts: &Counts, t: &Tables, held: &mut Held) -> Result<(), u32> {
    if !sound::has_room(t) {
        return Err(SHORT);
    }
    held.end = sound::sound(counts, t, &mut held.chains).ok_or(DAMAGED)?;
    if gaps::are_right(counts.steps as usize, t, held.end) {
        Ok(())
    } else {
        Err(DAMAGED)
    }
}

/// Tests whether a rule can be asked for where `count` places of `places` are taken.
fn test_rule(counts: &Counts, rule: Rule, count: u32, places: usize) -> Result<(), u32> {
    if !sound::steps_fit(counts.steps, rule) {
        return Err(STEP);
    }
    if !sound::amount_fits(rule.amount) {
        return Err(AMOUNT);
    }
    if count as usize >= places {
        return Err(FULL);
    }
    Ok(())
}

/// The number given back.
fn number(outcome: Result<(), u32>) -> u32 {
    outcome.err().unwrap_or(DONE)
}

pub fn open(counts: &mut Counts, t: &mut Tables, steps: u32) -> u32 {
    if !sound::has_room(t) {
        return SHORT;
    }
    if steps < 1 || steps as usize > STEPS {
        return STEP;
    }
    t.days[..steps as usize].fill(0);
    t.levels[..RULES].fill(0);
    gaps::open(steps as usize, t);
    *counts = Counts { steps, rules: 0, marks: 0, watched: 0, last: 0 };
    DONE
}

pub fn watch(counts: &mut Counts, t: &mut Tables, rule: Rule) -> u32 {
    number(try_watch(counts, t, rule))
}

fn try_watch(counts: &mut Counts, t: &mut Tables, rule: Rule) -> Result<(), u32> {
    test(counts, t, &mut Held::new())?;
    test_rule(counts, rule, counts.watched, WATCHED)?;
    let at = counts.watched as usize;
    t.wxs[at] = rule.first as u16;
    t.wys[at] = rule.second as u16;
    t.wcs[at] = rule.amount;
    counts.watched += 1;
    Ok(())
}

pub fn mark(counts: &mut Counts, t: &mut Tables) -> u32 {
    number(try_mark(counts, t))
}

fn try_mark(counts: &mut Counts, t: &mut Tables) -> Result<(), u32> {
    test(counts, t, &mut Held::new())?;
    if counts.marks as usize >= MARKS {
        return Err(FULL);
    }
    counts.marks += 1;
    Ok(())
}

pub fn back(counts: &mut Counts, t: &mut Tables) -> u32 {
    number(try_back(counts, t))
}

fn try_back(counts: &mut Counts, t: &mut Tables) -> Result<(), u32> {
    let mut held = Held::new();
    test(counts, t, &mut held)?;
    if counts.marks == 0 {
        return Err(NOMARK);
    }
    let gone = free_level(&mut t.levels[..held.end], counts.marks as u8 + 1);
    if gone > 0 {
        held.chains.build_held(&t.levels[..held.end], &t.xs[..held.end]);
        counts.last = plan_afresh(counts.steps as usize, &held.chains, counts.last, t);
        gaps::remake(counts.steps as usize, t, held.end);
    }
    counts.marks -= 1;
    counts.rules -= gone;
    Ok(())
}

/// Frees the places of a level, and returns how many they are.
fn free_level(levels: &mut [u8], newest: u8) -> u32 {
    let mut gone = 0;
    for level in levels {
        if *level == newest {
            *level = 0;
            gone += 1;
        }
    }
    gone
}

pub fn withdraw(counts: &mut Counts, t: &mut Tables, number: u32) -> u32 {
    self::number(try_withdraw(counts, t, number))
}

/// Where the rule has days to spare, no day came by it, and the plan stays.
fn try_withdraw(counts: &mut Counts, t: &mut Tables, number: u32) -> Result<(), u32> {
    let mut held = Held::new();
    test(counts, t, &mut held)?;
    if !sound::is_held(t, number) {
        return Err(ABSENT);
    }
    let at = number as usize;
    let rule = Rule { first: t.xs[at].into(), second: t.ys[at].into(), amount: t.cs[at] };
    if lack(t.days, rule) == 0 {
        held.chains.unlink(t.xs[at], at);
        counts.last = plan_afresh(counts.steps as usize, &held.chains, counts.last, t);
    }
    t.levels[at] = 0;
    gaps::remake(counts.steps as usize, t, held.end);
    counts.rules -= 1;
    Ok(())
}

/// Brings the days, which keep the rules of the chains, to the earliest plan of these: every step is asked to reach the last day, and all are then
/// brought back by it. Returns the last day after that.
fn plan_afresh(steps: usize, chains: &Chains<RULES>, last: u32, t: &mut Tables) -> u32 {
    let days = &t.days[..steps];
    let latest = i64::from(last);
    let mut spread = Spread::new(days, t.ys, t.cs, chains);
    for (step, &day) in days.iter().enumerate() {
        if i64::from(day) < latest {
            spread.ask(step, latest - i64::from(day));
        }
    }
    spread.run(None);
    let gains = spread.gains;
    let mut last = 0;
    for (day, gain) in t.days[..steps].iter_mut().zip(gains) {
        *day = (i64::from(*day) + gain - latest) as u32;
        last = last.max(*day);
    }
    last
}

/// What the days lack for a rule; 0 or less where they keep it.
fn lack(days: &[u32], rule: Rule) -> i64 {
    i64::from(days[rule.first as usize]) - i64::from(rule.amount) - i64::from(days[rule.second as usize])
}

/// Spreads what the days lack for a rule. True where the rule fits; else the gain has reached its first step.
fn fits(spread: &mut Spread, rule: Rule) -> bool {
    let (x, y) = (rule.first as usize, rule.second as usize);
    let lack = lack(spread.days, rule);
    if lack > 0 {
        spread.ask(y, lack);
        spread.run(Some(x));
    }
    spread.gains[x] == 0
}

pub fn add(counts: &mut Counts, t: &mut Tables, list: &mut [u32], rule: Rule, value: &mut u32) -> u32 {
    *value = 0;
    number(try_add::<true>(counts, t, list, rule, value))
}

/// Add that gives the ring by which the gain came, whichever that is: what the shortest one takes is measured against it.
pub fn add_with_any_ring(counts: &mut Counts, t: &mut Tables, list: &mut [u32], rule: Rule, value: &mut u32) -> u32 {
    *value = 0;
    number(try_add::<false>(counts, t, list, rule, value))
}

fn try_add<const SHORTEST: bool>(counts: &mut Counts, t: &mut Tables, list: &mut [u32], rule: Rule, value: &mut u32) -> Result<(), u32> {
    if list.len() < STEPS {
        return Err(SHORT);
    }
    let mut held = Held::new();
    test(counts, t, &mut held)?;
    test_rule(counts, rule, counts.rules, RULES)?;
    if lack(t.days, rule) > 0 {
        raise::<SHORTEST>(counts, t, &mut held, list, rule, value)?;
    }
    let at = held.next(t);
    t.xs[at] = rule.first as u16;
    t.ys[at] = rule.second as u16;
    t.cs[at] = rule.amount;
    t.levels[at] = counts.marks as u8 + 1;
    gaps::add(counts.steps as usize, t, rule);
    counts.rules += 1;
    Ok(())
}

/// Raises the days to the earliest plan with a rule that they break; on a conflict the list has its ring. The value is how many steps move, or the ring's length.
fn raise<const SHORTEST: bool>(counts: &mut Counts, t: &mut Tables, held: &mut Held, list: &mut [u32], rule: Rule, value: &mut u32) -> Result<(), u32> {
    let steps = counts.steps as usize;
    let mut spread = Spread::new(&t.days[..steps], t.ys, t.cs, &held.chains);
    if !fits(&mut spread, rule) {
        *value = if SHORTEST {
            shortest::reason(counts, t, held, rule, list)
        } else {
            spread.ring(t.xs, rule.first as usize, rule.second as usize, held.next(t) as u32, list)
        } as u32;
        return Err(CONFLICT);
    }
    let gains = spread.gains;
    counts.last = 0;
    for (day, &gain) in t.days[..steps].iter_mut().zip(&gains) {
        *day += gain as u32;
        *value += u32::from(gain > 0);
        counts.last = counts.last.max(*day);
    }
    Ok(())
}

pub fn trial(counts: &Counts, t: &mut Tables, days: &mut [u32], ring: &mut [u32], rule: Rule, value: &mut u32) -> u32 {
    *value = 0;
    number(try_trial(counts, t, days, ring, rule, value))
}

fn try_trial(counts: &Counts, t: &Tables, days: &mut [u32], ring: &mut [u32], rule: Rule, value: &mut u32) -> Result<(), u32> {
    if days.len() < STEPS || ring.len() < STEPS {
        return Err(SHORT);
    }
    let mut held = Held::new();
    test(counts, t, &mut held)?;
    test_rule(counts, rule, counts.rules, RULES)?;
    let plan = &t.days[..counts.steps as usize];
    let mut spread = Spread::new(plan, t.ys, t.cs, &held.chains);
    if !fits(&mut spread, rule) {
        *value = shortest::reason(counts, t, &mut held, rule, ring) as u32;
        return Err(CONFLICT);
    }
    for ((to, &day), &gain) in days.iter_mut().zip(plan).zip(&spread.gains) {
        *to = day + gain as u32;
        *value += u32::from(gain > 0);
    }
    Ok(())
}

pub fn ring_check(counts: &Counts, t: &mut Tables, list: &[u32], rule: Rule, verdict: &mut u32) -> u32 {
    *verdict = 0;
    number(try_ring_check(counts, t, list, rule).map(|ring| *verdict = u32::from(ring)))
}

fn try_ring_check(counts: &Counts, t: &Tables, list: &[u32], rule: Rule) -> Result<bool, u32> {
    let mut held = Held::new();
    test(counts, t, &mut held)?;
    test_rule(counts, rule, 0, RULES)?;
    Ok(ring::is_ring(counts.steps as usize, held.next(t) as u32, t, rule, list))
}

pub fn consequences(counts: &Counts, t: &mut Tables, all: &mut [u32], none: &mut [u32], held: &mut u32, excluded: &mut u32) -> u32 {
    *held = 0;
    *excluded = 0;
    number(try_consequences(counts, t, all, none).map(|(in_all, in_none)| {
        *held = in_all as u32;
        *excluded = in_none as u32;
    }))
}

fn try_consequences(counts: &Counts, t: &Tables, all: &mut [u32], none: &mut [u32]) -> Result<(usize, usize), u32> {
    let watched = counts.watched as usize;
    if all.len() < watched || none.len() < watched {
        return Err(SHORT);
    }
    let mut rules = Held::new();
    test(counts, t, &mut rules)?;
    let spread = Spread::new(&t.days[..counts.steps as usize], t.ys, t.cs, &rules.chains);
    Ok(split::split(spread, t, watched, all, none))
}

pub fn last_day(counts: &Counts, t: &mut Tables, day: &mut u32) -> u32 {
    *day = 0;
    number(test(counts, t, &mut Held::new()).map(|()| *day = counts.last))
}

pub fn gap(counts: &Counts, t: &mut Tables, x: u32, y: u32, limited: &mut u32, limit: &mut i64) -> u32 {
    *limited = 0;
    *limit = 0;
    number(try_gap(counts, t, x, y).map(|cell| {
        if cell != NO_LIMIT {
            *limited = 1;
            *limit = cell;
        }
    }))
}

fn try_gap(counts: &Counts, t: &Tables, x: u32, y: u32) -> Result<i64, u32> {
    test(counts, t, &mut Held::new())?;
    if !gaps::is_kept(counts.steps as usize) {
        return Err(YARD);
    }
    if x >= counts.steps || y >= counts.steps {
        return Err(STEP);
    }
    Ok(t.gaps[x as usize][y as usize])
}
