//! Commands for mixed sequences: the commands of a generated script one after the other, each with a little of the text after it, and the refusals that no
//! whole script comes to.

use crate::acts::Act;
use common::generate;
use common::Random;
use reader::{next_command, skip_blank, Next};

/// How much text after a command is handed over with it.
const AFTER: usize = 24;

const ODD: [&str; 24] = [
    "",
    " (check-sat)",
    "(",
    ")",
    "(check-sat",
    "check-sat",
    ";c\n(check-sat)",
    "(check-sat)(",
    "(check-sat) |",
    "(set-logic QF_IDL)",
    "(set-logic QF_LIA)",
    "(exit)",
    "(exit now)",
    "(push 0)",
    "(pop 0)",
    "(push 64)",
    "(push 65)",
    "(pop 64)",
    "(foo (bar))",
    "(assert (or a b))",
    "(get-value ())",
    "(get-value (cut nowhere))",
    "(assert (<= (- cut cut) (- 1)))",
    "(assert (and (<= (- cut dry) 5) (<= (- dry cut) (- 6)) (<= (- cut dry) 1)))",
];

pub struct Script {
    text: Vec<u8>,
    at: usize,
}

impl Script {
    /// A script for a mixed sequence; nothing for another.
    pub fn new(mixed: bool, random: &mut Random) -> Script {
        if !mixed {
            return Script { text: Vec::new(), at: 0 };
        }
        use generate::Kind::{Harvest, Mutated, Soup};
        let kind = random.pick(&[Harvest, Harvest, Harvest, Soup, Soup, Mutated]);
        let mut text = kind.script(random.next());
        text.truncate(20_000);
        Script { text, at: 0 }
    }

    /// The next command, or an odd one; check-sat and get-value at the end.
    pub fn next(&mut self, random: &mut Random) -> Act {
        self.at = skip_blank(&self.text, self.at);
        if self.at == self.text.len() || random.chance(120) {
            return Act::Command(random.pick(&ODD).into());
        }
        let from = self.at;
        let end = match next_command(&self.text, from) {
            Next::Command(_, after) => after,
            // The next bracket may open something better.
            Next::Wrong => (from + 1..self.text.len()).find(|at| self.text[*at] == b'(').unwrap_or(self.text.len()),
        };
        self.at = end;
        let after = (end + random.below(AFTER)).min(self.text.len());
        Act::Command(self.text[from..after].to_vec())
    }
}

/// A command for tables that are nearly full: terms of several rules, now and then a contradiction, levels that come and go.
pub fn at_the_brim(random: &mut Random) -> Act {
    let text = match random.below(10) {
        0 => "(check-sat)".to_string(),
        1 => format!("(push {})", random.below(4)),
        2 | 3 => format!("(pop {})", random.pick(&[0, 1, 1, 2, 64])),
        4 => "(assert (<= (- cut cut) (- 1)))".to_string(),
        _ => {
            // Most keep the two rules that are held: dry is two days after cut, and turn three after dry.
            const ATOMS: [&str; 9] = [
                "(<= (- turn cut) 5)", "(<= (- turn dry) 3)", "(<= (- cut turn) 0)", "(not (> (- dry cut) 2))", "(>= (- turn cut) 5)", "(<= (- cut cut) 0)", "(<= (- turn cut) 4)",
                "(<= (- cut nowhere) 1)", "(<= (- cut dry) 1000001)",
            ];
            let mut term = random.pick(&ATOMS[..7]).to_string();
            for _ in 0..random.below(9) {
                let atom = if random.chance(30) { random.pick(&ATOMS) } else { random.pick(&ATOMS[..6]) };
                term = format!("(and {} {})", term, atom);
            }
            format!("(assert {})", term)
        }
    };
    Act::Command(text.into())
}
