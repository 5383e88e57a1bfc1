//! z3 as a third opinion on whole problems: the rules held at the end of a sequence. They are satisfiable, the days keep them, and no plan has an earlier day; some
//! plan ends on the last day and none before it; a rule fits as Trial says; a watched rule holds in every arrangement or in none as Consequences says; and in one yard every
//! pair has the limit that Gap says.

use crate::acts::Act;
use crate::compare::Both;
use crate::engine::{is_sound, yard, CONFLICT};
use crate::office::{Office, Place};
use crate::sequences::rule;
use common::peers::{self, Question};
use common::Random;
use planner::calls::Rule;
use reader::DONE;
use std::path::Path;

/// Problems with more rules take z3 long; a chain over all steps has fewer.
const RULES: u32 = 1_100;

/// Far beyond what rules of one yard can add up to.
const FAR: i64 = 1_000_000_000;

/// The question that the problem at the end of a sequence makes, where there is a whole one.
pub fn question(seed: u64, both: &Both) -> Option<Question> {
    let office = both.office();
    let counts = office.counts();
    if counts.rules == 0 || counts.rules > RULES || counts.marks > 64 || !has_room(office) || !is_sound(office) {
        return None;
    }
    let mut problem = Problem { text: String::new(), wanted: Vec::new() };
    problem.say("(set-logic QF_IDL)\n(declare-fun zero () Int)");
    for step in 0..counts.steps {
        problem.say(&format!("(declare-fun s{} () Int)", step));
    }
    for number in office.numbers() {
        problem.say(&format!("(assert {})", atom("<=", office.rule(number as usize))));
    }
    problem.say("(check-sat)");
    problem.wanted.push("sat");
    problem.days(office);
    problem.trials(seed, both);
    problem.watched(both);
    problem.limits(both);
    Some(Question { name: format!("sequence {}", seed), text: problem.text.into_bytes(), wanted: problem.wanted, shown: String::new() })
}

/// What z3 reads, and what it answers where it agrees.
struct Problem {
    text: String,
    wanted: Vec<&'static str>,
}

impl Problem {
    fn say(&mut self, line: &str) {
        self.text.push_str(line);
        self.text.push('\n');
    }

    /// Whether all rules hold with one more thing.
    fn with(&mut self, thing: &str, wanted: &'static str) {
        self.say(&format!("(push 1)(assert {})(check-sat)(pop 1)", thing));
        self.wanted.push(wanted);
    }

    /// The days keep the rules, and no plan has one of them earlier. Some plan has no day after the last day, and none has all days before it.
    fn days(&mut self, office: &Office) {
        let days = &office.shelf.days.part()[..office.counts().steps as usize];
        let each = |operator: &str| -> Vec<String> { days.iter().enumerate().map(|(step, day)| format!("({} (- s{} zero) {})", operator, step, day)).collect() };
        self.with(&format!("(and true {} {})", each("<=").join(" "), each(">=").join(" ")), "sat");
        let plan: Vec<String> = (0..days.len()).map(|step| format!("(>= (- s{} zero) 0)", step)).collect();
        self.with(&format!("(and true {} (or false {}))", plan.join(" "), each("<").join(" ")), "unsat");
        let all = |operator: &str| -> Vec<String> { (0..days.len()).map(|step| format!("({} (- s{} zero) {})", operator, step, office.counts().last)).collect() };
        self.with(&format!("(and true {} {})", plan.join(" "), all("<=").join(" ")), "sat");
        self.with(&format!("(and true {} {})", plan.join(" "), all("<").join(" ")), "unsat");
    }

    /// Some rules, each with what Trial gives.
    fn trials(&mut self, seed: u64, both: &Both) {
        let mut random = Random::new(seed);
        let mut both = both.clone();
        for _ in 0..4 {
            let steps = both.office().counts().steps as usize;
            let (x, y) = (random.below(steps), random.below(steps));
            let day = |step: usize| i64::from(both.office().shelf.days.part()[step]);
            let amount = (day(x) - day(y) + random.between(-4, 2)).clamp(-1_000_000, 1_000_000);
            let tried = rule(x, y, amount);
            match both.make(&Act::Trial(tried)).map(|given| given.number) {
                Ok(DONE) => self.with(&atom("<=", tried), "sat"),
                Ok(CONFLICT) => self.with(&atom("<=", tried), "unsat"),
                _ => (),
            }
        }
    }

    /// Some watched rules, each with what Consequences gives.
    fn watched(&mut self, both: &Both) {
        let mut both = both.clone();
        let given = match both.make(&Act::Consequences) {
            Ok(given) if given.number == DONE => given,
            _ => return,
        };
        let office = both.office();
        let (all, none) = (&office.one.part()[..given.one as usize], &office.two.part()[..given.two as usize]);
        let satisfiable = |not: bool| if not { "unsat" } else { "sat" };
        for number in (0..office.counts().watched).take(8) {
            let watched = office.watched_rule(number as usize);
            self.with(&atom(">", watched), satisfiable(all.contains(&number)));
            self.with(&atom("<=", watched), satisfiable(none.contains(&number)));
        }
    }

    /// What Gap gives for every pair of one yard. All rules x, y, c with their limits follow, so that no arrangement breaks one of them. None follows with less: for each
    /// step y some arrangement has every other step x as far after it as the limit allows, and very far where there is none.
    fn limits(&mut self, both: &Both) {
        let mut both = both.clone();
        let steps = yard(both.office()).unwrap_or(0) as u32;
        let mut broken = vec!["false".to_string()];
        for y in 0..steps {
            let mut far = vec!["true".to_string()];
            for x in 0..steps {
                match both.make(&Act::Gap(x, y)) {
                    Ok(given) if given.number == DONE && given.one == 1 => {
                        broken.push(apart(">", x, y, given.two));
                        far.push(apart(">=", x, y, given.two));
                    }
                    Ok(given) if given.number == DONE => far.push(apart(">=", x, y, FAR)),
                    _ => return,
                }
            }
            self.with(&format!("(and {})", far.join(" ")), "sat");
        }
        if steps > 0 {
            self.with(&format!("(or {})", broken.join(" ")), "unsat");
        }
    }
}

fn has_room(office: &Office) -> bool {
    Place::ALL.iter().all(|place| office.lent(*place) >= place.room())
}

fn atom(operator: &str, rule: Rule) -> String {
    apart(operator, rule.first, rule.second, rule.amount.into())
}

fn apart(operator: &str, x: u32, y: u32, days: i64) -> String {
    let days = if days < 0 { format!("(- {})", -days) } else { days.to_string() };
    format!("({} (- s{} s{}) {})", operator, x, y, days)
}

/// Asks all in one process. An error is the first sequence on which z3 says otherwise.
pub fn ask(peer: &str, questions: &[Question], folder: &Path) -> Result<(), String> {
    if questions.is_empty() {
        return Err("  there is nothing to ask".to_string());
    }
    let agreed = peers::ask(peer, questions, &folder.join(format!("calls-{}.smt2", peer)))?;
    println!("calls: {} was asked {} problems, and agrees in {} answers", peer, questions.len(), agreed);
    Ok(())
}
