//! Lists for the ring check.

use crate::acts::Act;
use crate::office::{Office, STEPS};
use crate::sequences::{rules_lent, Writer};
use planner::calls::Rule;

impl Writer {
    /// A list for the ring check: a real ring, one that is nearly one, or any numbers.
    pub fn ring_check(&mut self, office: &Office) -> Act {
        let (next, count) = (office.next_number(), office.counts().rules);
        let (refused, ring) = match self.refused.clone() {
            Some(newest) if self.random.chance(800) => newest,
            _ => {
                let any = self.rule(office);
                let mut list = vec![next];
                list.extend((0..self.random.below(4)).map(|_| self.random.below(count as usize % 5_000 + 1) as u32));
                (any, list)
            }
        };
        let mut list = ring;
        // Rules may have come and gone since it was refused: another number is the next, and a rule of the ring is perhaps not held.
        if !list.is_empty() && self.random.chance(500) {
            list[0] = next;
        }
        let at = self.random.below(list.len().max(1));
        let number = self.random.pick(&[0, 1, next.wrapping_sub(1), next, next.wrapping_add(1), count, 4_095, 4_096, 65_536, u32::MAX]);
        let mut asked = refused;
        match self.random.below(16) {
            0 => drop(list.pop()),
            1 => list.push(number),
            2 => list.extend(list.clone()),
            3 => list.rotate_left(at),
            4 if !list.is_empty() => list[at] = number,
            5 => list.insert(at.min(list.len()), number),
            6 => list.clear(),
            7 => asked.amount = asked.amount.saturating_add(self.random.pick(&[1, 2, 1_000_000, -1])),
            8 => list.resize(STEPS + 1 + at, number),
            9 if list.len() > 2 => list.swap(1, 2),
            10 | 11 => detour(office, &mut list, at),
            12 => other_rule(office, &mut list, at),
            13 => other_way(office, &mut list, at),
            _ => (),
        }
        Act::RingCheck(asked, list)
    }
}

/// The rules that are looked through for another way, with their numbers.
fn looked_through(office: &Office) -> Vec<(u32, Rule)> {
    rules_lent(office).into_iter().take(60).map(|number| (number, office.rule(number as usize))).collect()
}

/// A rule that leads from one step to another.
fn leads(rules: &[(u32, Rule)], from: u32, to: u32) -> Option<u32> {
    rules.iter().find(|(_, rule)| rule.first == from && rule.second == to).map(|(number, _)| *number)
}

/// The rule at a place of the list, where it is one of those that are looked through.
fn rule_at(rules: &[(u32, Rule)], list: &[u32], at: usize) -> Option<Rule> {
    list.get(at).and_then(|number| rules.iter().find(|(other, _)| other == number)).map(|(_, rule)| *rule)
}

/// Puts a way round into a list of rules, from the first step of one back to it, where held rules have one: the list then meets a step twice.
fn detour(office: &Office, list: &mut Vec<u32>, at: usize) {
    let (at, rules) = (at.max(1), looked_through(office));
    let step = match rule_at(&rules, list, at) {
        Some(rule) => rule.first,
        None => return,
    };
    if let Some(own) = leads(&rules, step, step) {
        list.insert(at, own);
    } else if let Some((there, back)) = (0..STEPS as u32).find_map(|other| Some((leads(&rules, step, other)?, leads(&rules, other, step)?))) {
        list.splice(at..at, [there, back]);
    }
}

/// Puts the rule of the highest number between the same steps in the place of one: the list may still be a ring, and is not the reason then.
fn other_rule(office: &Office, list: &mut [u32], at: usize) {
    let (at, rules) = (at.max(1), looked_through(office));
    if let Some(rule) = rule_at(&rules, list, at) {
        let like = |(_, other): &&(u32, Rule)| other.first == rule.first && other.second == rule.second;
        list[at] = rules.iter().rev().find(like).expect("the rule itself").0;
    }
}

/// Puts two rules, which lead by another step, in the place of one: the list may still be a ring, a longer one.
fn other_way(office: &Office, list: &mut Vec<u32>, at: usize) {
    let (at, rules) = (at.max(1), looked_through(office));
    if let Some(rule) = rule_at(&rules, list, at) {
        let way = |by: u32| if by == rule.first || by == rule.second { None } else { Some([leads(&rules, rule.first, by)?, leads(&rules, by, rule.second)?]) };
        if let Some(two) = (0..STEPS as u32).find_map(way) {
            list.splice(at..at + 1, two);
        }
    }
}
