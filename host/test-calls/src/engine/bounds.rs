//! What every arrangement says of two steps, and the split of the watched rules.

use super::sound::{held, rules};
use crate::office::Office;
use reader::Rule;
use std::collections::BTreeMap;

/// For each step the least c for which day(step) - day(from) <= c in every arrangement; nothing where there is none. The rules have an arrangement.
/// Rounds over all rules, until nothing falls.
fn limits(steps: usize, rules: &[Rule], from: usize) -> Vec<Option<i64>> {
    let mut limit = vec![None; steps];
    limit[from] = Some(0);
    loop {
        let mut fallen = false;
        for rule in rules {
            // day(x) <= day(y) + c
            if let Some(least) = limit[rule.y].map(|so_far: i64| so_far + rule.c) {
                if limit[rule.x].map_or(true, |so_far| least < so_far) {
                    limit[rule.x] = Some(least);
                    fallen = true;
                }
            }
        }
        if !fallen {
            return limit;
        }
    }
}

/// The numbers of the watched rules that hold in every arrangement of the rules held, and of those that hold in none. The tables are sound.
pub fn split(office: &Office) -> (Vec<u32>, Vec<u32>) {
    let (steps, rules) = (office.counts().steps as usize, rules(office));
    let mut known: BTreeMap<usize, Vec<Option<i64>>> = BTreeMap::new();
    // Whether the rule holds in every arrangement: the rules held leave day(x) - day(y) no more than c.
    let mut always = |rule: Rule| {
        let limit = known.entry(rule.y).or_insert_with(|| limits(steps, &rules, rule.y));
        limit[rule.x].map_or(false, |least| least <= rule.c)
    };
    let (mut all, mut none) = (Vec::new(), Vec::new());
    for number in 0..office.counts().watched {
        let rule = held(office.watched_rule(number as usize));
        if always(rule) {
            all.push(number);
        }
        // It holds in none where its negation holds in all.
        if always(rule.negated()) {
            none.push(number);
        }
    }
    (all, none)
}
