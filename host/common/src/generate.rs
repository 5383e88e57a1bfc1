//! Generated scripts: harvests, token soup, and harvests with mistakes in them.

use crate::random::Random;
use reader::words;

/// A kind of generated script.
#[derive(Clone, Copy, PartialEq, Eq)]
pub enum Kind {
    Harvest,
    Soup,
    Mutated,
}

impl Kind {
    pub const ALL: [Kind; 3] = [Kind::Harvest, Kind::Soup, Kind::Mutated];

    pub fn name(self) -> &'static str {
        match self {
            Kind::Harvest => "harvests",
            Kind::Soup => "token soup",
            Kind::Mutated => "mutated scripts",
        }
    }

    /// The script of a seed.
    pub fn script(self, seed: u64) -> Vec<u8> {
        let mut random = Random::new(seed.wrapping_mul(3).wrapping_add(self as u64));
        match self {
            Kind::Harvest => Harvest::script(&mut random),
            Kind::Soup => soup(&mut random),
            Kind::Mutated => mutated(&mut random),
        }
    }
}

pub const STEPS: [&str; 12] = ["cut", "dry", "turn", "bale", "cart", "stack", "thresh", "winnow", "mill", "sow-rye", "plough_2", "x.1"];

/// A script as a farm would write it, over hidden days that most rules keep: long runs of `sat`, now and then a
/// contradiction, levels that come and go.
struct Harvest<'r> {
    random: &'r mut Random,
    names: Vec<String>,
    days: Vec<i64>,
    declared: usize,
    level: usize,
    sat: bool,
    /// How often a rule is against the hidden days, in a thousand.
    against: usize,
    /// Whether the small faults that end a script may come.
    faults: bool,
    text: String,
}

impl Harvest<'_> {
    fn script(random: &mut Random) -> Vec<u8> {
        let large = random.chance(10);
        let count = if large && random.chance(500) { reader::NAMES } else if large { 100 + random.below(reader::NAMES - 99) } else if random.chance(100) { 30 + random.below(60) } else { 2 + random.below(11) };
        let span = random.pick(&[3, 20, 400, 900_000]);
        let names = (0..count).map(|i| if i < 12 { STEPS[i].to_string() } else { format!("field{}", i) }).collect();
        let days = (0..count).map(|_| random.between(0, span)).collect();
        let against = random.pick(&[0, 10, 60, 300]);
        let faults = random.chance(250);
        let mut harvest = Harvest { random, names, days, declared: 0, level: 0, sat: false, against, faults, text: String::new() };
        harvest.whole(large);
        harvest.text.into_bytes()
    }

    fn whole(&mut self, large: bool) {
        self.say("(set-logic QF_IDL)");
        let first = 2.max(self.names.len() - self.random.below(3).min(self.names.len()));
        for _ in 0..first {
            self.declare();
        }
        let length = if large { 900 } else if self.random.chance(50) { 150 } else { 3 + self.random.below(40) };
        for _ in 0..length {
            // What is left of a script's bytes is enough to ask for the day of every name.
            if self.text.len() > 50_000 {
                break;
            }
            self.command();
        }
        if self.random.chance(700) {
            self.say("(check-sat)");
        }
        if self.random.chance(100) {
            self.say("(exit)");
        }
    }

    fn say(&mut self, command: &str) {
        let after = self.random.pick(&["\n", "\n", "\n", "\n\n", " ", "", "\r\n", " ; after that\n", "\t; (check-sat)\r"]);
        let command = if self.random.chance(30) { command.replace(' ', " ;()\n ") } else { command.to_string() };
        self.text.push_str(&command);
        self.text.push_str(after);
    }

    fn declare(&mut self) {
        if self.declared < self.names.len() {
            let command = format!("(declare-fun {} () Int)", self.names[self.declared]);
            self.say(&command);
            self.declared += 1;
        }
    }

    fn command(&mut self) {
        if self.faults && self.random.chance(40) {
            return self.fault();
        }
        match self.random.below(20) {
            0..=9 => {
                let term = self.term(1, false);
                self.say(&format!("(assert {})", term));
                self.sat = false;
            }
            10..=12 => {
                self.say("(check-sat)");
                self.sat = true;
            }
            // After an `unsat` this is MODE, and ends the script.
            13 | 14 => {
                if self.sat && (self.against == 0 || self.random.chance(300)) {
                    let names: Vec<String> = (0..1 + self.random.below(6)).map(|_| self.name()).collect();
                    self.say(&format!("(get-value ({}))", names.join(" ")));
                }
            }
            15 | 16 => {
                let more = self.random.pick(&[1, 1, 1, 2, 0, 3]);
                if self.level + more <= 64 {
                    self.level += more;
                    self.sat = false;
                    self.say(&format!("(push {})", more));
                }
            }
            17 | 18 => {
                let fewer = self.random.below(self.level.min(4) + 1);
                self.level -= fewer;
                self.sat = false;
                self.say(&format!("(pop {})", fewer));
            }
            _ => {
                self.sat &= self.declared == self.names.len();
                self.declare();
            }
        }
    }

    fn fault(&mut self) {
        let text = match self.random.below(12) {
            0 => "(pop 65)",
            1 => "(push 65)",
            2 => "(get-value (nowhere))",
            3 => "(assert (<= (- cut nowhere) 1))",
            4 => "(assert (<= (- cut dry) 1000001))",
            5 => "(assert (and (<= (- cut dry) 1) (not (< (- cut dry) (- 1000001)))))",
            6 => "(assert (not (not (not (not (not (not (not (not (not (not (not (not (not (not (not (not (<= (- cut dry) 1))))))))))))))))))",
            7 => "(declare-fun a-name-of-more-than-thirty-two-bytes () Int)",
            8 => "(set-logic QF_IDL)",
            9 => "(declare-fun cut () Int)",
            10 => "(assert (= (- cut dry) 1))",
            _ => "(set-option :produce-models true)",
        };
        self.say(text);
    }

    fn name(&mut self) -> String {
        self.names[self.random.below(self.declared)].clone()
    }

    /// A term that says what it says under an odd number of `not` or an even one.
    fn term(&mut self, depth: usize, odd: bool) -> String {
        if depth < 6 && self.random.chance(150) {
            return format!("(not {})", self.term(depth + 1, !odd));
        }
        if depth < 4 && !odd && self.random.chance(150) {
            let terms: Vec<String> = (0..2 + self.random.below(3)).map(|_| self.term(depth + 1, odd)).collect();
            return format!("(and {})", terms.join(" "));
        }
        self.atom(odd)
    }

    /// An atom that the hidden days keep, with some room or none, or one that they break.
    fn atom(&mut self, odd: bool) -> String {
        let (x, y) = (self.random.below(self.declared), self.random.below(self.declared));
        let gap = self.days[x] - self.days[y];
        let slack = self.random.pick(&[0, 0, 1, 2, 7, 50]);
        // A contradiction below all marks stays to the end: it is to be rare.
        let against = if self.level == 0 { self.against / 8 } else { self.against };
        let keeps = !self.random.chance(against);
        let operator = self.random.pick(&["<=", "<", ">=", ">"]);
        // With amount `gap`, `<=` and `>=` hold and `<` and `>` do not.
        let upward = (operator == "<=" || operator == "<") != odd;
        let holds_at_gap = (operator == "<=" || operator == ">=") != odd;
        let step = if keeps { slack + i64::from(!holds_at_gap) } else { -slack - i64::from(holds_at_gap) };
        let amount = if upward { gap + step } else { gap - step };
        let number = if amount < 0 { format!("(- {})", -amount) } else { amount.to_string() };
        format!("({} (- {} {}) {})", operator, self.names[x], self.names[y], number)
    }
}

const TOKENS: [&str; 60] = [
    "(", "(", "(", "(", "(", ")", ")", ")", ")", ")", "and", "not", "<=", "<", ">=", ">", "-", "x", "y", "z", "0", "1", "5", "1000000", "1000001",
    "999999999999", "assert", "check-sat", "get-value", "push", "pop", "declare-fun", "set-logic", "QF_IDL", "Int", "exit", "or", "let", "true", "foo", "1.5",
    "#x1F", "#b01", ":key", "00", "|", "\"", ";c\n", "; c\r", "()", "(- x y)", "(<= (- x y) 1)", "(<= (- x y) (- 1))", "(> (- y x) 2)", "(- 7)", "_", "!", "a:b",
    "n2345678901234567890123456789012", "n23456789012345678901234567890123",
];

/// Commands after two names, or after nothing: some near the form, with a departure here and there, some of tokens without order.
fn soup(random: &mut Random) -> Vec<u8> {
    let mut text = String::new();
    if random.chance(950) {
        text.push_str("(set-logic QF_IDL)(declare-fun x () Int)(declare-fun y () Int)\n");
    }
    for _ in 0..1 + random.below(12) {
        text.push_str(&if random.chance(850) { near(random) } else { tokens(random) });
        text.push_str(random.pick(&["\n", "", " ; c\n", " "]));
    }
    text.into_bytes()
}

/// A command near the form.
fn near(random: &mut Random) -> String {
    match random.below(20) {
        0..=11 => format!("(assert {})", near_term(random, 0)),
        12 => format!("(push {})", random.pick(&["1", "1", "0", "2", "60", "65", "4294967297"])),
        13 => format!("(pop {})", random.pick(&["1", "0", "0", "1", "2", "18446744073709551616"])),
        14 | 15 => "(check-sat)".to_string(),
        16 | 17 => format!("(check-sat)(get-value ({}))", random.pick(&["x", "x y", "y x y", "x z", "", "x 5", "x (y)"])),
        18 => format!("(declare-fun {} () Int)", random.pick(&["z", "w", "x", "let", "and", "n2345678901234567890123456789012", "n23456789012345678901234567890123"])),
        _ => format!("(foo {})", near_term(random, 0)),
    }
}

fn near_term(random: &mut Random, depth: usize) -> String {
    if random.chance(10) {
        return random.pick(&TOKENS[10..]).to_string();
    }
    match random.below(10) {
        0 | 1 if depth < 14 => {
            let deep = if random.chance(50) { random.below(16) } else { 0 };
            format!("{}(not {}){}", "(not ".repeat(deep), near_term(random, depth + 1 + deep), ")".repeat(deep))
        }
        2 | 3 if depth < 5 => {
            let count = if random.chance(10) { random.below(2) } else { 2 + random.below(3) };
            let terms: Vec<String> = (0..count).map(|_| near_term(random, depth + 1)).collect();
            format!("(and {})", terms.join(" "))
        }
        _ => {
            let operator = if random.chance(8) { random.pick(&TOKENS[10..]) } else { random.pick(&["<=", "<", ">=", ">"]) };
            let mut name = || if random.chance(8) { random.pick(&TOKENS[17..]) } else { random.pick(&["x", "y"]) };
            let (first, second) = (name(), name());
            let amount = random.pick(&["0", "1", "2", "3", "7", "(- 1)", "(- 2)", "(- 3)", "(- 0)", "999999", "(- 999999)", "1000000", "(- 1000000)"]);
            let amount = if random.chance(8) { random.pick(&["1000001", "(- 1000001)", "1000002", "-1", "(- 1 1)", "(- x)", "z"]) } else { amount };
            format!("({} (- {} {}) {})", operator, first, second, amount)
        }
    }
}

/// Tokens without order, mostly with brackets that close.
fn tokens(random: &mut Random) -> String {
    let opening = random.pick(&["(assert ", "(assert (and ", "(get-value (", "(foo ", "(foo ", "(bar ", "(push ", "(declare-fun ", "("]);
    let mut text = opening.to_string();
    let mut open = opening.matches('(').count();
    for _ in 0..random.below(9) {
        let token = random.pick(&TOKENS);
        open = (open + token.matches('(').count()).saturating_sub(token.matches(')').count()).max(1);
        text.push_str(token);
        text.push_str(random.pick(&[" ", " ", " ", "", "\n"]));
    }
    if random.chance(950) {
        text.push_str(&")".repeat(open));
    }
    text
}

/// A harvest or soup with a few changes, in bytes or in words.
fn mutated(random: &mut Random) -> Vec<u8> {
    let mut script = if random.chance(800) { Harvest::script(random) } else { soup(random) };
    for _ in 0..random.pick(&[1, 1, 1, 2, 4]) {
        script = if random.chance(500) { change_word(random, &script) } else { change_byte(random, script) };
    }
    script
}

fn change_byte(random: &mut Random, mut script: Vec<u8>) -> Vec<u8> {
    const BYTES: &[u8] = b"()()() \n\r\t;|\"09a-<=:#.x!_\0\x0b\x7f\x80\xff";
    let at = random.below(script.len().max(1));
    let byte = if random.chance(800) { random.pick(BYTES) } else { random.below(256) as u8 };
    match random.below(4) {
        0 if !script.is_empty() => {
            script.remove(at);
        }
        1 if !script.is_empty() => script[at] = byte,
        2 => script.truncate(at),
        _ => script.insert(at.min(script.len()), byte),
    }
    script
}

fn change_word(random: &mut Random, script: &[u8]) -> Vec<u8> {
    let mut all: Vec<Vec<u8>> = words(script).into_iter().map(|word| word.to_vec()).collect();
    if all.is_empty() {
        return random.pick(&TOKENS).into();
    }
    let (at, other) = (random.below(all.len()), random.below(all.len()));
    match random.below(5) {
        0 => {
            all.remove(at);
        }
        1 => all.insert(at, random.pick(&TOKENS).into()),
        2 => all[at] = random.pick(&TOKENS).into(),
        3 => all.swap(at, other),
        _ => {
            let copied = all[at.min(other)..(at.min(other) + 12).min(all.len())].to_vec();
            all.splice(at..at, copied);
        }
    }
    all.concat()
}
