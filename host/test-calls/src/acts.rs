//! What a sequence is made of: the calls, and what the caller does to what it lends between them.

use crate::engine;
use crate::office::{Field, Office, Place};
use crate::sequences::rules_lent;
use planner::calls::Rule;
use std::fmt;

#[derive(Clone, PartialEq, Eq)]
pub enum Act {
    Open(u32),
    Watch(Rule),
    Add(Rule),
    Mark,
    Back,
    /// The rule held under a number goes.
    Withdraw(u32),
    Trial(Rule),
    Consequences,
    RingCheck(Rule, Vec<u32>),
    LastDay,
    /// The limit of a pair of steps.
    Gap(u32, u32),
    Start,
    /// A script command: the text that begins with it.
    Command(Vec<u8>),
    /// The caller writes a number into a cell.
    Set(Place, usize, i64),
    /// The caller writes a number into the counts or the record.
    SetField(Field, u32),
    /// The caller lends that many places from here on.
    Lend(Place, usize),
    /// The caller writes the rule into that many of the lowest free places, as one of the present level, and counts them; and what the gap table then has.
    Hold(Rule, usize),
    /// The caller writes the rule that many times at the end of the watched rules, and counts them.
    Follow(Rule, usize),
}

impl Act {
    /// The call's name, or nothing for what the caller does.
    pub fn call(&self) -> Option<&'static str> {
        Some(match self {
            Act::Open(_) => "Open",
            Act::Watch(_) => "Watch",
            Act::Add(_) => "Add",
            Act::Mark => "Mark",
            Act::Back => "Back",
            Act::Withdraw(_) => "Withdraw",
            Act::Trial(_) => "Trial",
            Act::Consequences => "Consequences",
            Act::RingCheck(..) => "Ring check",
            Act::LastDay => "Last day",
            Act::Gap(..) => "Gap",
            Act::Start => "start",
            Act::Command(_) => "command",
            Act::Set(..) | Act::SetField(..) | Act::Lend(..) | Act::Hold(..) | Act::Follow(..) => return None,
        })
    }

    /// Does what the caller does. Calls do nothing here.
    pub fn by_caller(&self, office: &mut Office) {
        match self {
            Act::Set(place, at, number) => office.set(*place, *at, *number),
            Act::SetField(field, number) => office.set_field(*field, *number),
            Act::Lend(place, len) => office.lend(*place, *len),
            Act::Hold(rule, times) => hold(office, *rule, *times),
            Act::Follow(rule, times) => follow(office, *rule, *times),
            _ => (),
        }
    }
}

/// Writes a rule into so many of the lowest free places, as far as there are places.
fn hold(office: &mut Office, rule: Rule, times: usize) {
    let places = office.lent(Place::Levels).min(Place::Levels.room()) as u32;
    let free: Vec<u32> = (0..places).filter(|number| !office.holds(*number)).take(times).collect();
    let (held, level) = (office.field(Field::Rules), office.field(Field::Marks).wrapping_add(1));
    for number in &free {
        write(office, rule, *number as usize, [Place::Xs, Place::Ys, Place::Cs]);
        office.set(Place::Levels, *number as usize, level.into());
    }
    office.set_field(Field::Rules, held.wrapping_add(free.len() as u32));
    let (numbers, steps) = (rules_lent(office), office.field(Field::Steps));
    let of_steps = |number: &u32| {
        let rule = office.rule(*number as usize);
        rule.first < steps && rule.second < steps
    };
    // Rules that are no such rules have no gap table.
    if numbers.len() == office.numbers().len() && numbers.iter().all(of_steps) {
        engine::remake(office);
    }
}

/// Writes a rule into so many places past the watched rules, as far as there are places.
fn follow(office: &mut Office, rule: Rule, times: usize) {
    let from = office.field(Field::Watched) as usize;
    let to = from.saturating_add(times).min(Place::Wxs.room());
    for number in from..to {
        write(office, rule, number, [Place::Wxs, Place::Wys, Place::Wcs]);
    }
    office.set_field(Field::Watched, from.max(to) as u32);
}

fn write(office: &mut Office, rule: Rule, number: usize, columns: [Place; 3]) {
    office.set(columns[0], number, rule.first.into());
    office.set(columns[1], number, rule.second.into());
    office.set(columns[2], number, rule.amount.into());
}

impl fmt::Display for Act {
    fn fmt(&self, to: &mut fmt::Formatter) -> fmt::Result {
        let of = |rule: &Rule| format!("{},{},{}", rule.first, rule.second, rule.amount);
        match self {
            Act::Open(steps) => write!(to, "Open {}", steps),
            Act::Watch(rule) => write!(to, "Watch {}", of(rule)),
            Act::Add(rule) => write!(to, "Add {}", of(rule)),
            Act::Mark => write!(to, "Mark"),
            Act::Back => write!(to, "Back"),
            Act::Withdraw(number) => write!(to, "Withdraw {}", number),
            Act::Trial(rule) => write!(to, "Trial {}", of(rule)),
            Act::Consequences => write!(to, "Consequences"),
            Act::RingCheck(rule, list) => write!(to, "Ring check {} {:?}", of(rule), list),
            Act::LastDay => write!(to, "Last day"),
            Act::Gap(x, y) => write!(to, "Gap {},{}", x, y),
            Act::Start => write!(to, "start"),
            Act::Command(text) => {
                let quoted: String = text.iter().flat_map(|byte| std::ascii::escape_default(*byte)).map(char::from).collect();
                write!(to, "command \"{}\"", quoted)
            }
            Act::Set(place, at, number) => write!(to, "the caller sets {:?}[{}] to {}", place, at, number),
            Act::SetField(field, number) => write!(to, "the caller sets the count {:?} to {}", field, number),
            Act::Lend(place, len) => write!(to, "the caller lends {} places of {:?}", len, place),
            Act::Hold(rule, times) => write!(to, "the caller writes {} into {} of the lowest free places", of(rule), times),
            Act::Follow(rule, times) => write!(to, "the caller writes {} {} times at the end of the watched rules", of(rule), times),
        }
    }
}
