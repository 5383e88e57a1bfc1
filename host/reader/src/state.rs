//! What a script has said so far, and what a command does to it.

use crate::form::{Command, Name, Term};
use crate::plan::{earliest, Rule};
use crate::{AMOUNT, FULL, LARGEST, MARKS, MODE, NAME, NAMES, NOMARK, RULES};

/// Every asserted rule stands with the level it came at, those also that came when the rules before already had no
/// arrangement: whether a level is contradictory is asked of the rules themselves.
pub struct State {
    pub names: Vec<Name>,
    pub rules: Vec<(usize, Rule)>,
    pub level: usize,
    logic_set: bool,
    sat_remembered: bool,
}

impl State {
    pub fn new() -> State {
        State { names: Vec::new(), rules: Vec::new(), level: 0, logic_set: false, sat_remembered: false }
    }

    /// The days of the declared names, or nothing where there is no arrangement.
    pub fn plan(&self) -> Option<Vec<i64>> {
        earliest(self.names.len(), self.rules.iter().map(|(_, rule)| *rule))
    }

    /// Carries a command out and gives what it prints, or the number of its refusal and changes nothing.
    pub fn carry_out(&mut self, command: &Command) -> Result<String, u32> {
        let allowed = match command {
            Command::SetLogic => !self.logic_set,
            Command::GetValue(_) => self.sat_remembered,
            _ => self.logic_set,
        };
        if !allowed {
            return Err(MODE);
        }
        let line = match command {
            Command::SetLogic => {
                self.logic_set = true;
                String::new()
            }
            Command::Declare(name) => self.declare(name)?,
            Command::Assert(term) => self.assert(term)?,
            Command::Push(count) => self.push(*count)?,
            Command::Pop(count) => self.pop(*count)?,
            Command::CheckSat => String::from(if self.plan().is_some() { "sat\n" } else { "unsat\n" }),
            Command::GetValue(names) => return self.values(names),
            Command::Exit => String::new(),
        };
        self.sat_remembered = line == "sat\n";
        Ok(line)
    }

    fn find(&self, name: &Name) -> Result<usize, u32> {
        find(&self.names, name)
    }

    fn declare(&mut self, name: &Name) -> Result<String, u32> {
        if self.find(name).is_ok() {
            return Err(NAME);
        }
        if self.names.len() == NAMES {
            return Err(FULL);
        }
        self.names.push(name.clone());
        Ok(String::new())
    }

    fn assert(&mut self, term: &Term) -> Result<String, u32> {
        let mut rules = Vec::new();
        rules_of(&self.names, term, false, &mut rules)?;
        if self.rules.len() + rules.len() > RULES && self.plan().is_some() {
            return Err(FULL);
        }
        let level = self.level;
        self.rules.extend(rules.into_iter().map(|rule| (level, rule)));
        Ok(String::new())
    }

    fn push(&mut self, count: u64) -> Result<String, u32> {
        if self.level as u64 + count > MARKS as u64 {
            return Err(FULL);
        }
        self.level += count as usize;
        Ok(String::new())
    }

    fn pop(&mut self, count: u64) -> Result<String, u32> {
        if count > self.level as u64 {
            return Err(NOMARK);
        }
        self.level -= count as usize;
        let level = self.level;
        self.rules.retain(|(came, _)| *came <= level);
        Ok(String::new())
    }

    fn values(&self, names: &[Name]) -> Result<String, u32> {
        let days = self.plan().expect("sat is remembered");
        let mut pairs = Vec::new();
        for name in names {
            pairs.push(format!("({} {})", String::from_utf8_lossy(name), days[self.find(name)?]));
        }
        Ok(format!("({})\n", pairs.join(" ")))
    }
}

/// The step that a name stands for: steps are numbered as declared.
fn find(names: &[Name], name: &Name) -> Result<usize, u32> {
    names.iter().position(|known| known == name).ok_or(NAME)
}

/// The rules of a term over the declared names, left to right; NAME or AMOUNT, whichever comes first.
pub fn rules_of(names: &[Name], term: &Term, negated: bool, into: &mut Vec<Rule>) -> Result<(), u32> {
    match term {
        Term::And(terms) => terms.iter().try_for_each(|part| rules_of(names, part, negated, into)),
        Term::Not(part) => rules_of(names, part, !negated, into),
        Term::Atom(operator, first, second, amount) => {
            let at_most = Rule { x: find(names, first)?, y: find(names, second)?, c: *amount };
            let below = Rule { c: amount - 1, ..at_most };
            let said = match &operator[..] {
                "<=" => at_most,
                "<" => below,
                ">=" => below.negated(),
                _ => at_most.negated(),
            };
            let rule = if negated { said.negated() } else { said };
            if rule.c.abs() > LARGEST {
                return Err(AMOUNT);
            }
            into.push(rule);
            Ok(())
        }
    }
}
