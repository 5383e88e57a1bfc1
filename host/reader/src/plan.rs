//! Rules and the earliest plan.

/// day(x) - day(y) <= c.
#[derive(Clone, Copy, PartialEq, Eq, Debug)]
pub struct Rule {
    pub x: usize,
    pub y: usize,
    pub c: i64,
}

impl Rule {
    /// The rule that holds exactly where this one does not.
    pub fn negated(self) -> Rule {
        Rule { x: self.y, y: self.x, c: -self.c - 1 }
    }
}

/// The earliest plan of the rules, or nothing where they have no arrangement. All days begin at 0 and are raised to the
/// least that each rule asks for; days that still rise after as many rounds as there are steps never come to rest.
pub fn earliest(steps: usize, rules: impl Iterator<Item = Rule> + Clone) -> Option<Vec<i64>> {
    let mut days = vec![0; steps];
    for _round in 0..=steps {
        let mut risen = false;
        for Rule { x, y, c } in rules.clone() {
            if days[y] < days[x] - c {
                days[y] = days[x] - c;
                risen = true;
            }
        }
        if !risen {
            return Some(days);
        }
    }
    None
}
