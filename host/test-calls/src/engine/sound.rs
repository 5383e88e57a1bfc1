//! When tables that have room are sound, and their earliest plan.

use crate::office::{Office, STEPS, WATCHED};
use planner::calls::Rule;
use reader::{earliest, LARGEST, MARKS, RULES};

/// The rule as the planner has it.
pub fn held(rule: Rule) -> reader::Rule {
    reader::Rule { x: rule.first as usize, y: rule.second as usize, c: rule.amount.into() }
}

/// The rules held, by their numbers.
pub fn rules(office: &Office) -> Vec<reader::Rule> {
    office.numbers().into_iter().map(|number| held(office.rule(number as usize))).collect()
}

/// How many marks were open when the rule held under a number was added.
pub fn level(office: &Office, number: u32) -> u32 {
    u32::from(office.shelf.levels.part()[number as usize]) - 1
}

/// The earliest plan of the rules held, from scratch; nothing where they have no arrangement.
pub fn planned(office: &Office) -> Option<Vec<i64>> {
    earliest(office.counts().steps as usize, rules(office).iter().copied())
}

/// The largest of the days; 0 where there is none.
pub fn largest(days: &[i64]) -> i64 {
    days.iter().fold(0, |so_far, day| if so_far < *day { *day } else { so_far })
}

/// The counts are within bounds, every held and watched rule too, no level of a held rule has more marks than are open, as many places are held as the count says, the
/// days are the earliest plan, and the last day is the largest of them.
pub fn is_sound(office: &Office) -> bool {
    let counts = office.counts();
    let (steps, watched) = (counts.steps as usize, counts.watched as usize);
    if steps < 1 || steps > STEPS || counts.rules as usize > RULES || counts.marks as usize > MARKS || watched > WATCHED {
        return false;
    }
    let good = |rule: Rule| rule.first < counts.steps && rule.second < counts.steps && i64::from(rule.amount).abs() <= LARGEST;
    let numbers = office.numbers();
    numbers.len() == counts.rules as usize
        && numbers.iter().all(|number| good(office.rule(*number as usize)) && level(office, *number) <= counts.marks)
        && (0..watched).all(|number| good(office.watched_rule(number)))
        && planned(office).map_or(false, |days| {
            days.iter().zip(office.shelf.days.part()).all(|(day, cell)| *day == i64::from(*cell)) && i64::from(counts.last) == largest(&days)
        })
}
