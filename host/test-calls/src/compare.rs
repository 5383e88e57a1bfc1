//! One call by the library and by the independent engine, compared whole: what is given back, and all that is lent, the ring of a conflict among it, past the counts
//! and lengths and beside the slices too.

use crate::acts::Act;
use crate::engine::{self, Given};
use crate::office::Office;
use planner::calls;

/// What stands in a value before the call, and beside it after it.
const KEPT: u32 = 0xA5A5_5A5A;

/// A value that is lent between two others.
struct Value<T>([T; 3]);

impl<T: Copy + PartialEq> Value<T> {
    fn lend(&mut self) -> &mut T {
        &mut self.0[1]
    }

    /// The value, where those beside it are kept.
    fn read(&self, kept: T) -> Result<T, String> {
        if self.0[0] == kept && self.0[2] == kept {
            Ok(self.0[1])
        } else {
            Err("the call wrote beside a value".to_string())
        }
    }
}

/// Makes the call by the library.
pub fn by_library(office: &mut Office, act: &Act) -> Result<Given, String> {
    let (mut first, mut second) = (Value([KEPT; 3]), Value([KEPT; 3]));
    let (mut read, mut written) = (Value([KEPT as usize; 3]), Value([KEPT as usize; 3]));
    let mut limit = Value([i64::from(KEPT); 3]);
    let Office { counts: [_, counts, _], record: [_, record, _], shelf, names, lens, out, one, two } = office;
    let tables = &mut shelf.tables();
    let number = match act {
        Act::Open(steps) => calls::open(counts, tables, *steps),
        Act::Watch(rule) => calls::watch(counts, tables, *rule),
        Act::Add(rule) => calls::add(counts, tables, one.part_mut(), *rule, first.lend()),
        Act::Mark => calls::mark(counts, tables),
        Act::Back => calls::back(counts, tables),
        Act::Withdraw(number) => calls::withdraw(counts, tables, *number),
        Act::Trial(rule) => calls::trial(counts, tables, one.part_mut(), two.part_mut(), *rule, first.lend()),
        Act::Consequences => calls::consequences(counts, tables, one.part_mut(), two.part_mut(), first.lend(), second.lend()),
        Act::RingCheck(rule, list) => calls::ring_check(counts, tables, list, *rule, first.lend()),
        Act::LastDay => calls::last_day(counts, tables, first.lend()),
        Act::Gap(x, y) => calls::gap(counts, tables, *x, *y, first.lend(), limit.lend()),
        Act::Start => calls::start(counts, record, tables, &Office::lend_names(names, lens)),
        Act::Command(text) => {
            let lent_names = &mut Office::lend_names(names, lens);
            calls::command(text, counts, record, tables, lent_names, out.part_mut(), read.lend(), written.lend())
        }
        Act::Set(..) | Act::SetField(..) | Act::Lend(..) | Act::Hold(..) | Act::Follow(..) => {
            act.by_caller(office);
            return Ok(Given { number: 0, one: 0, two: 0 });
        }
    };
    let (first, second) = (first.read(KEPT)?, second.read(KEPT)?);
    let (read, written) = (read.read(KEPT as usize)?, written.read(KEPT as usize)?);
    let limit = limit.read(KEPT.into())?;
    let (one, two) = match act {
        Act::Add(_) | Act::Trial(_) | Act::RingCheck(..) | Act::LastDay => (u64::from(first), 0),
        Act::Consequences => (u64::from(first), i64::from(second)),
        Act::Gap(..) => (u64::from(first), limit),
        Act::Command(_) => (read as u64, written as i64),
        _ => (0, 0),
    };
    Ok(Given { number, one, two })
}

/// What is lent to the library and what is lent to the independent engine. Between calls the two are the same.
#[derive(Clone)]
pub struct Both {
    library: Office,
    engine: Office,
}

impl Both {
    /// The office of a seed, lent to each.
    pub fn new(seed: u64) -> Both {
        let office = Office::new(seed);
        Both { library: office.clone(), engine: office }
    }

    /// What is lent, between calls.
    pub fn office(&self) -> &Office {
        &self.engine
    }

    /// Makes the call by both. An error says how they differ.
    pub fn make(&mut self, act: &Act) -> Result<Given, String> {
        let given = by_library(&mut self.library, act)?;
        let wanted = engine::carry_out(&mut self.engine, act);
        if given != wanted {
            return Err(format!("wanted {:?}, got {:?}", wanted, given));
        }
        match self.engine.difference(&self.library) {
            None => Ok(given),
            Some(how) => Err(format!("{} (both gave {:?})", how, given)),
        }
    }
}

/// Makes all calls, from the office of a seed. An error says which call it was, and how it differs.
pub fn compare_all(seed: u64, acts: &[Act]) -> Result<Both, (usize, String)> {
    let mut both = Both::new(seed);
    for (at, act) in acts.iter().enumerate() {
        both.make(act).map_err(|why| (at, why))?;
    }
    Ok(both)
}
