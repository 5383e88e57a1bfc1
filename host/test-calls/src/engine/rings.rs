//! Rings, from the definition, and the reason of a refused rule.

use super::sound::{held, rules};
use crate::office::Office;
use planner::calls::Rule;
use std::collections::HashSet;

/// Whether the list is a negative ring that starts with the rule under its would-be number and goes on over held rules. The tables are sound.
pub fn refutes(office: &Office, rule: Rule, list: &[u32]) -> bool {
    let next = office.next_number();
    match list.split_first() {
        Some((first, others)) if *first == next && others.iter().all(|number| office.holds(*number)) => (),
        _ => return false,
    }
    let ring: Vec<Rule> = list.iter().map(|number| if *number == next { rule } else { office.rule(*number as usize) }).collect();
    let following = ring.iter().skip(1).chain(ring.first());
    let linked = ring.iter().zip(following).all(|(one, other)| one.second == other.first);
    let firsts: HashSet<u32> = ring.iter().map(|rule| rule.first).collect();
    let sum: i64 = ring.iter().map(|rule| i64::from(rule.amount)).sum();
    linked && firsts.len() == ring.len() && sum < 0
}

/// For each step the least sum of the amounts of some held rules in a row that lead from it to the refused rule's first step; nothing where none do.
type Sums = Vec<Option<i64>>;

/// The reason of a refused rule: of the lists that refute it those with the fewest rules, and of these the one that is smallest at the first difference. The tables are
/// sound, and no arrangement keeps the rule along with those held. A list that goes back to a step is never among the shortest: held rules that lead from a step back
/// to it add up to no less than 0, so without them it is below 0 as well.
pub fn reason(office: &Office, rule: Rule) -> Vec<u32> {
    let (refused, numbers, rules) = (held(rule), office.numbers(), rules(office));
    // By how many rules there are in a row: first none, which leads from the step to itself.
    let mut sums: Vec<Sums> = vec![vec![None; office.counts().steps as usize]];
    sums[0][refused.x] = Some(0);
    while !ends_below_0(refused.c, sums[sums.len() - 1][refused.y]) {
        sums.push(one_more(&rules, &sums[sums.len() - 1]));
        assert!(sums.len() <= office.counts().steps as usize, "no ring of {:?}", rule);
    }
    let mut list = vec![office.next_number()];
    let (mut step, mut sum) = (refused.y, refused.c);
    for rest in sums.iter().rev().skip(1) {
        let goes_on = |rule: &reader::Rule| rule.x == step && ends_below_0(sum + rule.c, rest[rule.y]);
        // They stand by their numbers, so the first one has the lowest.
        let lowest = rules.iter().position(goes_on).expect("a rule that goes on");
        list.push(numbers[lowest]);
        step = rules[lowest].y;
        sum += rules[lowest].c;
    }
    assert!(refutes(office, rule, &list), "{:?} is no negative ring of {:?}", list, rule);
    list
}

/// Whether there is a rest with which the sum is below 0.
fn ends_below_0(sum: i64, rest: Option<i64>) -> bool {
    rest.map_or(false, |rest| sum + rest < 0)
}

/// The sums with one more rule in front.
fn one_more(rules: &[reader::Rule], rest: &Sums) -> Sums {
    let mut sums = vec![None; rest.len()];
    for rule in rules {
        if let Some(sum) = rest[rule.y].map(|rest| rule.c + rest) {
            if sums[rule.x].map_or(true, |so_far| sum < so_far) {
                sums[rule.x] = Some(sum);
            }
        }
    }
    sums
}
