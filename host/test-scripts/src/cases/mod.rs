//! Cases written out by hand from the paper: a script, and exactly what it prints. Nothing here asks the solver.

mod bounds;
mod form;
mod levels;
mod lexicon;
mod order;

/// One script and what it prints. It ends with the number in its last line where that is an error, else with DONE.
pub struct Case {
    pub name: String,
    pub script: Vec<u8>,
    pub out: Vec<u8>,
}

/// How many names may stand declared, and how many one `get-value` may have.
pub const NAMES: usize = 1_024;
pub const ASKED: usize = 256;

/// Two declared names.
pub const XY: &str = "(set-logic QF_IDL)(declare-fun x () Int)(declare-fun y () Int)";

pub struct Cases(pub Vec<Case>);

impl Cases {
    /// A whole script.
    pub fn whole(&mut self, name: &str, script: impl AsRef<[u8]>, out: impl AsRef<[u8]>) {
        self.0.push(Case { name: name.to_string(), script: script.as_ref().to_vec(), out: out.as_ref().to_vec() });
    }

    /// Text after `XY`.
    pub fn xy(&mut self, text: impl AsRef<[u8]>, out: impl AsRef<[u8]>) {
        let name = String::from_utf8_lossy(text.as_ref()).chars().take(90).collect::<String>();
        self.whole(&name, [XY.as_bytes(), text.as_ref()].concat(), out);
    }

    /// Terms asserted after `XY`, each in a script of its own. All are read alike: the answer follows each.
    pub fn terms(&mut self, terms: &[&str], out: &str) {
        for term in terms {
            self.xy(format!("(assert {})", term), out);
        }
    }

    /// Whole commands after `XY`, each in a script of its own.
    pub fn commands(&mut self, commands: &[&str], out: &str) {
        for command in commands {
            self.xy(command, out);
        }
    }
}

pub use bounds::all_steps;

/// The answers to refusals, by name.
pub const AMOUNT: &str = "(error \"4\")\n";
pub const FULL: &str = "(error \"5\")\n";
pub const NOMARK: &str = "(error \"7\")\n";
pub const SYNTAX: &str = "(error \"8\")\n";
pub const MODE: &str = "(error \"9\")\n";
pub const NAME: &str = "(error \"10\")\n";
pub const SIZE: &str = "(error \"11\")\n";
pub const UNSUPPORTED: &str = "unsupported\n";

pub fn all() -> Vec<Case> {
    let mut cases = Cases(Vec::new());
    lexicon::cases(&mut cases);
    form::cases(&mut cases);
    order::cases(&mut cases);
    levels::cases(&mut cases);
    bounds::cases(&mut cases);
    cases.0
}
