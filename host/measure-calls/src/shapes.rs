//! Sound tables of a given size, in two shapes, and the rules that calls on them ask for. The last step is the second step of no rule held, so that a
//! rule from it can move every other step and is never refused.

use crate::office::Office;
use common::Random;
use planner::calls::Rule;

#[derive(Clone, Copy, Debug, PartialEq, Eq)]
pub enum Shape {
    /// One chain of rules with nothing to spare through all steps but the last; every other rule has days to spare.
    Chain,
    /// Rules between random steps that hidden days keep.
    Random,
}

impl Shape {
    pub const ALL: [Shape; 2] = [Shape::Chain, Shape::Random];

    pub fn name(self) -> &'static str {
        match self {
            Shape::Chain => "chain",
            Shape::Random => "random",
        }
    }
}

/// How large the tables are: steps, rules held, watched rules, and over how many steps these go; and the marks open, the newest of which has half of the
/// rules before it.
#[derive(Clone, Copy, Debug)]
pub struct Size {
    pub steps: usize,
    pub rules: usize,
    pub watched: usize,
    pub over: usize,
    pub marks: usize,
}

/// Sound tables of that shape and size. The order of the rules is random.
pub fn office(shape: Shape, size: Size) -> Office {
    let random = &mut Random::new(size.steps as u64);
    let mut office = Office::new(size.steps);
    let mut rules = match shape {
        Shape::Chain => chain(size, random),
        Shape::Random => scattered(size, random),
    };
    for left in (1..rules.len()).rev() {
        rules.swap(left, random.below(left + 1));
    }
    rules.into_iter().for_each(|rule| office.hold(rule));
    plan(&mut office);
    for number in 0..size.watched {
        let (x, y) = (number % size.over, random.below(size.over));
        let amount = i64::from(office.days[x]) - i64::from(office.days[y]) + random.between(-200, 400);
        office.watch(rule(x, y, amount));
    }
    // Each mark was set when so many rules were held.
    for held in (1..=size.marks).map(|mark| mark * size.rules / 2 / size.marks) {
        office.levels[held..size.rules].iter_mut().for_each(|level| *level += 1);
    }
    office.counts.marks = size.marks as u32;
    office
}

pub fn rule(x: usize, y: usize, amount: i64) -> Rule {
    Rule { first: x as u32, second: y as u32, amount: amount as i32 }
}

fn chain(size: Size, random: &mut Random) -> Vec<Rule> {
    let last = size.steps - 1;
    let day = |step: usize| if step == last { 0 } else { step as i64 };
    let mut rules: Vec<Rule> = (1..last).map(|step| rule(step - 1, step, -1)).collect();
    while rules.len() < size.rules {
        let (x, y) = (random.below(size.steps), random.below(last));
        rules.push(rule(x, y, day(x) - day(y) + random.between(1, 100)));
    }
    rules
}

fn scattered(size: Size, random: &mut Random) -> Vec<Rule> {
    let hidden: Vec<i64> = (0..size.steps).map(|_| random.between(0, 1000)).collect();
    let last = size.steps - 1;
    // Where few rules come to a step, the first ones lead to each from an earlier one: else some steps could not be moved from the first.
    let few = size.rules < 8 * size.steps;
    let one = |number: usize| {
        let step = number + 1;
        let (x, y) = if few && step < last { (random.below(step), step) } else { (random.below(size.steps), random.below(last)) };
        rule(x, y, hidden[x] - hidden[y] + random.between(0, 200))
    };
    (0..size.rules).map(one).collect()
}

/// Brings the days to the earliest plan, by raising them until every rule is kept, the last day with them, and the gap table.
fn plan(office: &mut Office) {
    let mut moved = true;
    while moved {
        moved = false;
        for number in 0..office.counts.rules as usize {
            let (x, y) = (usize::from(office.xs[number]), usize::from(office.ys[number]));
            let least = i64::from(office.days[x]) - i64::from(office.cs[number]);
            if i64::from(office.days[y]) < least {
                office.days[y] = least as u32;
                moved = true;
            }
        }
    }
    office.counts.last = office.days[..office.counts.steps as usize].iter().copied().max().expect("a step");
    office.remake_gaps();
}

/// The number of a rule held that has days to spare.
pub fn sparing(office: &Office) -> u32 {
    let day = |step: u16| i64::from(office.days[usize::from(step)]);
    let spare = |at: usize| day(office.ys[at]) + i64::from(office.cs[at]) - day(office.xs[at]);
    (0..office.counts.rules).find(|number| spare(*number as usize) > 0).expect("a rule with days to spare")
}

/// A rule that the days keep.
pub fn still(office: &Office) -> Rule {
    let (x, y) = (0, office.counts.steps as usize - 2);
    rule(x, y, i64::from(office.days[x]) - i64::from(office.days[y]) + 10)
}

/// A rule from the last step that moves many: all of a chain by a day, and in the random shape whatever its second step leads to.
pub fn moving(shape: Shape, office: &Office) -> Rule {
    let last = office.counts.steps as usize - 1;
    match shape {
        Shape::Chain => rule(last, 0, -1),
        Shape::Random => rule(last, 0, -100_000),
    }
}

/// Rules that are refused: along a chain with a ring of so many rules; in the random shape the caller chooses by its ring.
pub fn clashing(shape: Shape, office: &Office, ring: usize) -> Vec<Rule> {
    let last = office.counts.steps as usize - 1;
    match shape {
        Shape::Chain => vec![rule(ring - 1, 0, i64::from(office.days[ring - 1]) - 1)],
        Shape::Random => {
            let random = &mut Random::new(1);
            (0..200).map(|_| rule(random.below(last), random.below(last), -2000)).collect()
        }
    }
}

/// Sound tables of these rules.
fn holding(steps: usize, rules: impl Iterator<Item = Rule>) -> Office {
    let mut office = Office::new(steps);
    rules.for_each(|rule| office.hold(rule));
    plan(&mut office);
    office
}

/// Tables for a ring of 16 rules that is dear to find: one way of 15 rules, and from most other steps the way's last step is near.
pub fn crowded(steps: usize, rules: usize) -> Office {
    let random = &mut Random::new(steps as u64);
    let way = (1..16).map(|step| rule(step - 1, step, -1));
    let to_the_end = (16..steps).map(|step| rule(step, 15, 0));
    let mut any = || rule(16 + random.below(steps - 16), 16 + random.below(steps - 16), 0);
    let among = std::iter::repeat_with(|| any());
    holding(steps, way.chain(to_the_end).chain(among).take(rules))
}

/// Tables with nothing to spare, so that every step is near to others by many rules: a chain over all steps, its rules turned round, rules of one step, and so on.
pub fn tight(steps: usize, rules: usize) -> Office {
    let chain = (1..steps).map(|step| rule(step - 1, step, -1));
    let turned = (1..steps).map(|step| rule(step, step - 1, 1));
    let own = (0..steps).map(|step| rule(step, step, 0));
    holding(steps, chain.chain(turned).chain(own).cycle().take(rules))
}
