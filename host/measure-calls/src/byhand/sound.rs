//! Whether the tables have room, and whether they are sound.

use super::chains::Chains;
use planner::bounds::{LARGEST, MARKS, RULES, STEPS, WATCHED};
use planner::calls::{Counts, Rule, Tables};

/// Whether each table has room for its full bound.
pub fn has_room(t: &Tables) -> bool {
    let rules = t.xs.len().min(t.ys.len()).min(t.cs.len()).min(t.levels.len());
    let watched = t.wxs.len().min(t.wys.len()).min(t.wcs.len());
    rules >= RULES && t.days.len() >= STEPS && watched >= WATCHED
}

/// Whether a rule is held under the number.
pub fn is_held(t: &Tables, number: u32) -> bool {
    t.levels[..RULES].get(number as usize).map_or(false, |level| *level != 0)
}

/// Whether both steps are below the count.
pub fn steps_fit(steps: u32, rule: Rule) -> bool {
    rule.first < steps && rule.second < steps
}

pub fn amount_fits(amount: i32) -> bool {
    (-LARGEST..=LARGEST).contains(&amount)
}

/// Whether the tables, which have room, are sound: where they are, the place past the last rule held, and `chains` has the rules held.
pub fn sound(counts: &Counts, t: &Tables, chains: &mut Chains<RULES>) -> Option<usize> {
    let watched = counts.watched as usize;
    if counts.steps < 1 || counts.steps as usize > STEPS || counts.rules as usize > RULES || counts.marks as usize > MARKS || watched > WATCHED {
        return None;
    }
    let end = enter(counts, t, chains)?;
    let mut watch = t.wxs[..watched].iter().zip(&t.wys[..watched]).zip(&t.wcs[..watched]);
    let days = &t.days[..counts.steps as usize];
    let good = watch.all(|((&x, &y), &c)| in_bounds(counts.steps, x, y, c)) && is_largest(counts.last, days) && are_earliest(days, t.ys, t.cs, chains);
    if good {
        Some(end)
    } else {
        None
    }
}

fn in_bounds(steps: u32, x: u16, y: u16, c: i32) -> bool {
    u32::from(x) < steps && u32::from(y) < steps && amount_fits(c)
}

/// Enters the rules held into the chains, place by place until as many are seen as are counted, and looks that the places after these are free. Gives the first of them;
/// nothing where a rule or its level is out of bounds, or the count is not right.
fn enter(counts: &Counts, t: &Tables, chains: &mut Chains<RULES>) -> Option<usize> {
    let (levels, xs, ys, cs) = (&t.levels[..RULES], &t.xs[..RULES], &t.ys[..RULES], &t.cs[..RULES]);
    let (mut left, mut place) = (counts.rules, 0);
    while left > 0 {
        if place == RULES {
            return None;
        }
        if levels[place] != 0 {
            if u32::from(levels[place]) > counts.marks + 1 || !in_bounds(counts.steps, xs[place], ys[place], cs[place]) {
                return None;
            }
            chains.push(xs[place], place);
            left -= 1;
        }
        place += 1;
    }
    if levels[place..].iter().all(|level| *level == 0) {
        Some(place)
    } else {
        None
    }
}

/// Whether the last day is the largest of the days.
fn is_largest(last: u32, days: &[u32]) -> bool {
    days.iter().fold(0, |so_far, day| so_far.max(*day)) == last
}

/// Whether the days are the earliest plan of the rules in the chains: they keep every rule, and every step has day 0 or is reached from
/// one that has by rules with nothing to spare.
fn are_earliest(days: &[u32], ys: &[u16], cs: &[i32], chains: &Chains<RULES>) -> bool {
    let mut entered = [false; STEPS];
    let mut work = [0u16; STEPS];
    let mut count = 0;
    for (step, &day) in days.iter().enumerate() {
        if day == 0 {
            entered[step] = true;
            work[count] = step as u16;
            count += 1;
        }
    }
    let mut done = 0;
    while done < count {
        let x = usize::from(work[done]);
        done += 1;
        let day = i64::from(days[x]);
        for number in chains.of(x) {
            let y = usize::from(ys[number]);
            let spare = i64::from(days[y]) + i64::from(cs[number]) - day;
            if spare < 0 {
                return false;
            }
            if spare == 0 && !entered[y] {
                entered[y] = true;
                work[count] = y as u16;
                count += 1;
            }
        }
    }
    count == days.len()
}
