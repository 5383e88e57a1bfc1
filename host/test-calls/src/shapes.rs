//! Sound states of several shapes, for damage to begin from, and the calls that are made after it.

use crate::acts::Act;
use crate::office::{Field, Place, STEPS, YARD};
use crate::sequences::rule;

pub struct Shape {
    pub name: &'static str,
    /// How it is reached.
    pub acts: Vec<Act>,
    /// What is called after a change. A refused call changes nothing, so all are made in a row.
    pub calls: Vec<Act>,
    /// Changes that it alone has.
    pub changes: Vec<Vec<Act>>,
}

pub fn all() -> Vec<Shape> {
    vec![one_step(), rings_of_zero(), holes(), one_yard(), wider(), all_places(), chain(), declared(), contradictory(), many_names()]
}

fn add(x: usize, y: usize, c: i64) -> Act {
    Act::Add(rule(x, y, c))
}

fn watch(x: usize, y: usize, c: i64) -> Act {
    Act::Watch(rule(x, y, c))
}

fn say(text: &str) -> Act {
    Act::Command(text.into())
}

/// Every call, those first that write to no table.
fn every_call() -> Vec<Act> {
    vec![
        Act::LastDay,
        Act::Gap(0, 0),
        Act::Gap(0, 1),
        Act::Gap(YARD as u32, 0),
        Act::Trial(rule(0, 0, 0)),
        Act::Trial(rule(0, 0, -1)),
        Act::Consequences,
        Act::RingCheck(rule(0, 0, -1), vec![0]),
        Act::Watch(rule(0, 0, 1)),
        Act::Mark,
        add(0, 0, -1),
        add(0, 0, 2),
        Act::Withdraw(4_096),
        Act::Withdraw(0),
        Act::Back,
        Act::Back,
        Act::Withdraw(1),
        Act::LastDay,
        Act::Gap(0, 1),
        say("(check-sat)"),
        Act::Start,
        Act::Gap(0, 1),
        Act::Open(2),
        Act::LastDay,
        Act::Gap(0, 1),
    ]
}

fn one_step() -> Shape {
    Shape { name: "one step", acts: vec![Act::SetField(Field::Names, 0), Act::Open(1)], calls: every_call(), changes: Vec::new() }
}

/// Two zero rings, one above day 0, self rules, equal rules and equal marks.
fn rings_of_zero() -> Shape {
    let acts = vec![
        Act::SetField(Field::Names, 0),
        Act::Open(6),
        Act::Mark,
        add(0, 1, 0),
        add(1, 0, 0),
        watch(0, 1, 0),
        add(2, 3, -4),
        add(3, 4, 0),
        Act::Mark,
        Act::Mark,
        add(4, 3, 0),
        add(5, 5, 0),
        add(5, 5, 0),
        watch(2, 4, -4),
        watch(4, 2, 3),
        watch(5, 0, 1_000_000),
        Act::Mark,
        add(0, 5, -1_000_000),
        watch(5, 0, -1_000_000),
    ];
    // The steps of a ring hold each other up on any day.
    let days = |numbers: &[(usize, i64)]| numbers.iter().map(|(at, day)| Act::Set(Place::Days, *at, *day)).collect::<Vec<Act>>();
    let changes = vec![days(&[(0, 1), (1, 1), (5, 1_000_001)]), days(&[(3, 5), (4, 5)]), days(&[(3, 3), (4, 3)]), days(&[(0, 1), (1, 1)])];
    let calls = [
        vec![Act::Trial(rule(3, 2, 3)), Act::RingCheck(rule(3, 2, 3), vec![8, 2]), Act::RingCheck(rule(4, 2, 3), vec![8, 2, 3]), add(3, 2, 3), add(1, 2, -7)],
        every_call(),
    ];
    Shape { name: "zero rings", acts, calls: calls.concat(), changes }
}

/// Rules of several levels with free places between them: a later rule at a lower place, and a place with a rule that was withdrawn.
fn holes() -> Shape {
    let acts = vec![
        Act::SetField(Field::Names, 0),
        Act::Open(6),
        add(0, 1, -2),
        add(1, 2, -3),
        Act::Mark,
        add(2, 3, -1),
        add(5, 5, 0),
        Act::Mark,
        add(0, 4, -7),
        watch(0, 2, -5),
        watch(4, 0, 6),
        add(3, 0, 9),
        Act::Withdraw(1),
        Act::Withdraw(3),
        Act::Mark,
        add(1, 4, -1),
        Act::Mark,
    ];
    // The rule that was withdrawn is held again, and counted; two rules change their places.
    let changes = vec![
        vec![Act::Set(Place::Levels, 3, 1), Act::SetField(Field::Rules, 6)],
        vec![Act::Set(Place::Levels, 3, 5), Act::SetField(Field::Rules, 6)],
        vec![Act::Set(Place::Levels, 3, 6), Act::SetField(Field::Rules, 6)],
        vec![Act::Set(Place::Levels, 3, 1)],
        vec![Act::Set(Place::Levels, 0, 4), Act::Set(Place::Levels, 1, 1)],
        [Place::Xs, Place::Ys, Place::Cs].into_iter().zip([0, 1, -2]).map(|(place, cell)| Act::Set(place, 3, cell)).chain([Act::Set(Place::Levels, 3, 1), Act::Set(Place::Levels, 0, 0)]).collect(),
    ];
    let calls = [
        vec![Act::Trial(rule(1, 0, 1)), Act::RingCheck(rule(1, 0, 1), vec![3, 0]), Act::RingCheck(rule(1, 0, 1), vec![5, 0]), Act::RingCheck(rule(4, 0, 2), vec![3, 0, 1])],
        vec![Act::RingCheck(rule(5, 5, -1), vec![3]), Act::RingCheck(rule(5, 5, -1), vec![3, 3]), Act::Withdraw(3), Act::Withdraw(4), add(0, 3, -8), Act::Back, Act::Back, Act::Withdraw(2), add(0, 2, -1)],
        every_call(),
    ];
    Shape { name: "free places between rules", acts, calls: calls.concat(), changes }
}

/// Rules over so many steps: some of them in a ring with days to spare, others that lead to it or from it, and one that stands alone.
fn yard(steps: usize) -> Vec<Act> {
    let ring = steps / 2;
    let mut acts = vec![Act::SetField(Field::Names, 0), Act::Open(steps as u32)];
    acts.extend((1..ring).map(|step| add(step - 1, step, -2)));
    acts.push(add(ring - 1, 0, 1_000));
    acts.push(Act::Mark);
    acts.extend((ring..steps - 1).map(|step| if step % 2 == 0 { add(step, step - ring, 7) } else { add(step - ring, step, -1_000_000) }));
    acts.extend([watch(0, ring - 1, -3), Act::Mark, add(1, 0, 30)]);
    acts
}

/// As many steps as one yard has: every cell of the gap table is kept.
fn one_yard() -> Shape {
    Shape { name: "one yard", acts: yard(YARD), calls: every_call(), changes: Vec::new() }
}

/// A step more than one yard has: no cell of the gap table is kept.
fn wider() -> Shape {
    Shape { name: "a step more than one yard", acts: yard(YARD + 1), calls: every_call(), changes: Vec::new() }
}

/// Every place held, one of them by a later rule.
fn all_places() -> Shape {
    let half = reader::RULES / 2;
    let acts = vec![
        Act::SetField(Field::Names, 0),
        Act::Open(3),
        add(0, 1, -2),
        Act::Hold(rule(2, 2, 0), half),
        Act::Mark,
        Act::Hold(rule(1, 0, 5), half - 1),
        Act::Withdraw(17),
        Act::Mark,
        add(1, 2, -3),
        add(0, 0, 0),
    ];
    let calls = vec![
        Act::Trial(rule(0, 0, -1)),
        Act::RingCheck(rule(1, 0, 1), vec![4_096, 0]),
        Act::RingCheck(rule(1, 0, 1), vec![17, 0]),
        add(0, 0, 0),
        Act::Withdraw(4_096),
        Act::Withdraw(4_095),
        add(1, 0, 1),
        Act::Withdraw(0),
        Act::Gap(1, 0),
        add(2, 0, 1),
        Act::Back,
        Act::LastDay,
    ];
    Shape { name: "every place held", acts, calls, changes: Vec::new() }
}

/// A chain over all steps with the smallest amount, and all marks open. Its ring of all rules is found before the changes: it takes long.
fn chain() -> Shape {
    let last = STEPS - 1;
    let mut acts = vec![Act::SetField(Field::Names, 0), Act::Open(STEPS as u32)];
    for at in 0..last {
        acts.push(add(at, at + 1, -1_000_000));
        if at % (STEPS / reader::MARKS) == 0 {
            acts.push(Act::Mark);
        }
    }
    acts.extend([Act::Trial(rule(last, 0, 1_000_000)), add(last, 0, 0)]);
    let calls = vec![
        Act::Trial(rule(15, 0, 1_000_000)),
        Act::Mark,
        add(31, 0, 0),
        Act::LastDay,
        Act::Consequences,
        Act::Withdraw(last as u32),
        Act::Withdraw(last as u32 / 2),
        Act::Back,
        Act::LastDay,
        say("(check-sat)"),
        Act::Start,
    ];
    Shape { name: "chain", acts, calls, changes: Vec::new() }
}

/// Script commands and a few of the other calls.
fn commands() -> Vec<Act> {
    vec![
        Act::LastDay,
        say("(get-value (cut))"),
        say("(check-sat)"),
        say("(get-value (cut dry))"),
        say("(assert (<= (- dry cut) 1))"),
        say("(declare-fun stack () Int)"),
        Act::Withdraw(0),
        say("(check-sat)"),
        say("(push 1)"),
        Act::Back,
        Act::Back,
        say("(pop 1)"),
        Act::LastDay,
        say("check-sat"),
        Act::Start,
        say("(set-logic QF_IDL)"),
        Act::Open(3),
        say("(check-sat)"),
    ]
}

/// Writes a name over the one under a number.
fn renamed(number: usize, name: &str) -> Vec<Act> {
    let mut acts: Vec<Act> = name.bytes().enumerate().map(|(at, byte)| Act::Set(Place::Names, 32 * number + at, byte.into())).collect();
    acts.push(Act::Set(Place::Lens, number, name.len() as i64));
    acts
}

/// A script with names of 1 to 32 bytes, two levels and a remembered `sat`.
fn declared() -> Shape {
    let acts = vec![
        Act::Start,
        say("(set-logic QF_IDL)"),
        say("(declare-fun cut () Int)"),
        say("(declare-fun dry () Int)"),
        say("(declare-fun n2345678901234567890123456789012 () Int)"),
        say("(declare-fun ~!@$%^&*_-+=<>.?/ () Int)"),
        say("(declare-fun x () Int)"),
        say("(assert (<= (- cut dry) (- 2)))"),
        say("(push 1)"),
        say("(assert (and (<= (- dry x) (- 3)) (not (< (- x cut) 5))))"),
        say("(push 1)"),
        watch(0, 4, -5),
        say("(check-sat)"),
    ];
    let words = ["", "dry", "let", "assert", "set-logic", "x y", "1x", "(", "a:b", ":a", "#b0", "3", "0.5", "|x|", "a;b", "cu", "cutt", "_", "-", "n2345678901234567890123456789012"];
    let mut changes: Vec<Vec<Act>> = words.iter().map(|word| renamed(0, word)).collect();
    changes.extend(words.iter().map(|word| renamed(4, word)));
    changes.extend((0..4).map(|more| vec![Act::SetField(Field::Broken, more), Act::SetField(Field::Sat, 0)]));
    changes.push(vec![Act::SetField(Field::Logic, 0)]);
    changes.push(vec![Act::SetField(Field::Names, 0)]);
    Shape { name: "names", acts, calls: commands(), changes }
}

/// A script whose second level counts as contradictory, below a third.
fn contradictory() -> Shape {
    let acts = vec![
        Act::Start,
        say("(set-logic QF_IDL)"),
        say("(declare-fun cut () Int)"),
        say("(declare-fun dry () Int)"),
        say("(push 1)"),
        say("(assert (and (<= (- cut dry) (- 2)) (<= (- dry cut) 1) (<= (- cut dry) 7)))"),
        say("(push 1)"),
        say("(check-sat)"),
    ];
    let changes = (0..5).map(|level| vec![Act::SetField(Field::Broken, level)]).collect();
    Shape { name: "a contradictory level", acts, calls: commands(), changes }
}

/// As many names as steps, and one too many.
fn many_names() -> Shape {
    let mut acts = vec![Act::Start, say("(set-logic QF_IDL)")];
    let last = STEPS - 1;
    acts.extend((0..=STEPS).map(|number| say(&format!("(declare-fun n{} () Int)", number))));
    acts.extend([say(&format!("(assert (<= (- n0 n{}) (- 9)))", last)), say("(check-sat)")]);
    let calls = vec![say(&format!("(get-value (n{}))", last)), Act::LastDay, say("(declare-fun y () Int)"), Act::Start];
    let changes = vec![renamed(last, "n0"), renamed(0, &format!("n{}", last)), renamed(17, "n19"), renamed(last, "push")];
    Shape { name: "all names", acts, calls, changes }
}
