//! A sequence that ends with a given question: its rules in another order, some of them again, and its watched rules in theirs; between them marks, ways that are gone
//! back, rules that are withdrawn and added again, calls that are refused and calls that only ask. Over all steps it may be a script, for the steps that have names.

use crate::acts::Act;
use crate::office::STEPS;
use crate::pairs::Question;
use crate::sequences::{rule, shuffle};
use common::{generate, Random};
use planner::calls::Rule;
use reader::earliest;

/// More marks are not left open.
const OPEN: usize = 20;

pub struct Second<'r> {
    random: &'r mut Random,
    acts: Vec<Act>,
    steps: usize,
    open: usize,
    script: bool,
    /// The rule held at each place, between ways that are gone back; those past the end are free.
    places: Vec<Option<Rule>>,
    /// The rules that are still to come, the next one last.
    rules: Vec<Rule>,
}

impl Second<'_> {
    pub fn write(question: &Question, random: &mut Random) -> Vec<Act> {
        let steps = question.steps as usize;
        let named = question.rules.iter().all(|rule| rule.first.max(rule.second) < generate::STEPS.len() as u32);
        let script = steps == STEPS && named && random.chance(700);
        let mut second = Second { random, acts: Vec::new(), steps, open: 0, script, places: Vec::new(), rules: Vec::new() };
        second.begin();
        let mut rules: Vec<Rule> = question.rules.iter().copied().collect();
        // A set has no order of its own that is the same in every run.
        rules.sort_by_key(|rule| (rule.first, rule.second, rule.amount));
        let again: Vec<Rule> = rules.iter().copied().filter(|_| second.random.chance(200)).collect();
        rules.extend(again);
        shuffle(&mut rules, second.random);
        second.rules = rules;
        second.enter(&question.watched);
        second.acts
    }

    fn begin(&mut self) {
        if !self.script {
            return self.acts.push(Act::Open(self.steps as u32));
        }
        self.acts.push(Act::Start);
        self.command("(set-logic QF_IDL)".to_string());
        for name in generate::STEPS {
            self.command(format!("(declare-fun {} () Int)", name));
        }
    }

    /// The rules, and the watched rules between them, with other calls strewn in, until none of them is left.
    fn enter(&mut self, mut watched: &[Rule]) {
        while !self.rules.is_empty() || !watched.is_empty() {
            while self.random.chance(300) {
                self.strew();
            }
            if self.random.below(self.rules.len() + watched.len()) >= self.rules.len() {
                self.acts.push(Act::Watch(watched[0]));
                watched = &watched[1..];
            } else if let Some(next) = self.rules.pop() {
                self.add(next);
            }
        }
        self.strew();
        // What was withdrawn at the end comes back.
        while let Some(next) = self.rules.pop() {
            self.add(next);
        }
    }

    /// A rule that fits.
    fn add(&mut self, rule: Rule) {
        if self.script && self.random.chance(600) {
            let term = atom(rule);
            let twice = self.random.chance(300);
            let text = if twice { format!("(assert (and {} {}))", term, term) } else { format!("(assert {})", term) };
            self.command(text);
            if twice {
                self.hold(rule);
            }
        } else {
            self.acts.push(Act::Add(rule));
        }
        self.hold(rule);
    }

    /// Notes that a rule takes the lowest free place.
    fn hold(&mut self, rule: Rule) -> usize {
        let free = self.places.iter().position(Option::is_none).unwrap_or(self.places.len());
        self.places.resize(self.places.len().max(free + 1), None);
        self.places[free] = Some(rule);
        free
    }

    /// The places held.
    fn held(&self) -> Vec<usize> {
        (0..self.places.len()).filter(|place| self.places[*place].is_some()).collect()
    }

    /// One of the rules that are held goes, but for one place. It is among those to come again, or is added at once, or stands at another place too.
    fn withdraw(&mut self, but: Option<usize>) {
        let held: Vec<usize> = self.held().into_iter().filter(|place| Some(*place) != but).collect();
        if held.is_empty() {
            return self.acts.push(Act::Withdraw(4_096));
        }
        let place = self.random.pick(&held);
        self.acts.push(Act::Withdraw(place as u32));
        if let Some(gone) = self.places[place].take() {
            if self.random.chance(300) {
                self.add(gone);
            } else if !self.stands(gone, but) || self.random.chance(500) {
                let at = self.random.below(self.rules.len() + 1);
                self.rules.insert(at, gone);
            }
        }
    }

    /// Whether a rule is held, but for one place.
    fn stands(&self, rule: Rule, but: Option<usize>) -> bool {
        self.places.iter().enumerate().any(|(place, other)| Some(place) != but && *other == Some(rule))
    }

    /// A rule that fits now comes and goes; others may not fit while it is there.
    fn come_and_go(&mut self, any: Rule) {
        let rules = self.places.iter().flatten().chain([&any]);
        let all: Vec<reader::Rule> = rules.map(|rule| reader::Rule { x: rule.first as usize, y: rule.second as usize, c: rule.amount.into() }).collect();
        if earliest(self.steps, all.into_iter()).is_none() {
            return self.acts.push(Act::Trial(any));
        }
        self.acts.push(Act::Add(any));
        let place = self.hold(any);
        if self.random.chance(400) {
            self.withdraw(Some(place));
        }
        self.places[place] = None;
        self.acts.push(Act::Withdraw(place as u32));
    }

    fn command(&mut self, text: String) {
        self.acts.push(Act::Command(text.into_bytes()));
    }

    /// A rule of no matter, most of them within bounds.
    fn any(&mut self) -> Rule {
        let steps = if self.script { generate::STEPS.len() } else { self.steps };
        let (x, y) = (self.random.below(steps), self.random.below(steps));
        rule(x, y, self.random.between(-3, 4))
    }

    /// Something that changes neither the rules held nor the watched list in the end, once those to come are there.
    fn strew(&mut self) {
        let (any, steps) = (self.any(), self.steps);
        let act = match self.random.below(17) {
            0 if self.open < OPEN => {
                self.open += 1;
                Act::Mark
            }
            1 | 2 => return self.way_back(),
            3 => Act::Add(rule(0, 0, -1)),
            4 => Act::Add(rule(steps, 0, 0)),
            5 => Act::Watch(self.random.pick(&[rule(0, steps, 0), rule(0, 0, 1_000_001)])),
            6 => Act::Open(self.random.pick(&[0, STEPS as u32 + 1])),
            7 if self.open == 0 => Act::Back,
            8 => Act::Trial(any),
            9 => Act::RingCheck(any, vec![0]),
            10 => Act::Consequences,
            11 => {
                let free = self.places.iter().position(Option::is_none).unwrap_or(self.places.len());
                Act::Withdraw(self.random.pick(&[free as u32, self.places.len() as u32, 4_095, 4_096, u32::MAX]))
            }
            12 | 13 => return self.withdraw(None),
            14 => return self.come_and_go(any),
            15 => Act::Gap(any.first, any.second),
            _ => Act::LastDay,
        };
        self.acts.push(act);
    }

    /// Some rules, accepted or not, and back to where it was; without a rule that is withdrawn on the way, which comes again after it.
    fn way_back(&mut self) {
        let script = self.script && self.random.chance(500);
        let mark = |script: bool, text: &str, act: Act| if script { Act::Command(text.as_bytes().to_vec()) } else { act };
        self.acts.push(mark(script, "(push 1)", Act::Mark));
        let held = self.held();
        if !held.is_empty() && self.random.chance(300) {
            let place = self.random.pick(&held);
            self.acts.push(Act::Withdraw(place as u32));
            self.rules.extend(self.places[place].take());
        }
        for _ in 0..1 + self.random.below(3) {
            let any = self.any();
            if script {
                self.command(format!("(assert {})", atom(any)));
            } else {
                self.acts.push(Act::Add(any));
            }
        }
        self.acts.push(mark(script, "(pop 1)", Act::Back));
    }
}

/// The atom that says the rule, by the names of its steps.
fn atom(rule: Rule) -> String {
    let amount = if rule.amount < 0 { format!("(- {})", -rule.amount) } else { rule.amount.to_string() };
    format!("(<= (- {} {}) {})", generate::STEPS[rule.first as usize], generate::STEPS[rule.second as usize], amount)
}
