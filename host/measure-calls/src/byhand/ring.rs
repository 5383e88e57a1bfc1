//! Whether a list is a negative ring of a rule that is to be added and of rules held.

use super::sound;
use planner::calls::{Rule, Tables};

/// A window has so many steps: a flag for each of them is one bit of a u64.
const WINDOW: usize = 64;

/// Whether the list is a negative ring of the rule under the number `next` and then of rules held.
pub fn is_ring(steps: usize, next: u32, t: &Tables, rule: Rule, list: &[u32]) -> bool {
    match list.split_first() {
        Some((&first, rest)) if list.len() <= steps && first == next => closes(t, rule, rest) && different(steps, t.xs, rule.first as usize, rest),
        _ => false,
    }
}

/// Whether the rest leads from the rule's second step to its first, over rules held, with a negative sum.
fn closes(t: &Tables, rule: Rule, rest: &[u32]) -> bool {
    let (mut reached, mut sum) = (rule.second, i64::from(rule.amount));
    for &number in rest {
        if !sound::is_held(t, number) || u32::from(t.xs[number as usize]) != reached {
            return false;
        }
        sum += i64::from(t.cs[number as usize]);
        reached = u32::from(t.ys[number as usize]);
    }
    reached == rule.first && sum < 0
}

/// Whether no step is a first step twice, by two windows at a time.
fn different(steps: usize, xs: &[u16], first: usize, rest: &[u32]) -> bool {
    (0..steps).step_by(2 * WINDOW).all(|low| once_in(xs, first, rest, low / WINDOW))
}

/// Whether no step of that window or of the next is a first step twice.
fn once_in(xs: &[u16], first: usize, rest: &[u32], window: usize) -> bool {
    let (mut met, mut beyond) = (flag_in(window, first), flag_in(window + 1, first));
    for &number in rest {
        let step = usize::from(xs[number as usize]);
        let (flag, other) = (flag_in(window, step), flag_in(window + 1, step));
        if met & flag != 0 || beyond & other != 0 {
            return false;
        }
        met |= flag;
        beyond |= other;
    }
    true
}

/// The flag of the step in that window; 0 where the step lies in another one.
fn flag_in(window: usize, step: usize) -> u64 {
    if step / WINDOW == window {
        1 << (step % WINDOW)
    } else {
        0
    }
}
