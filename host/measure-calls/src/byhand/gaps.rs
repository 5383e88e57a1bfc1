//! The gap table of one yard: made from the rules by sums along ways over more and more steps, and brought up to date in place where one rule comes.

use planner::bounds::{NO_LIMIT, YARD_STEPS};
use planner::calls::{Gaps, Rule, Tables};

/// Whether so many steps have a gap table.
pub fn is_kept(steps: usize) -> bool {
    steps <= YARD_STEPS
}

/// The limits of all pairs of the steps with no rule.
fn apart(steps: usize) -> Gaps {
    let mut gaps = [[NO_LIMIT; YARD_STEPS]; YARD_STEPS];
    (0..steps).for_each(|step| gaps[step][step] = 0);
    gaps
}

/// The limits of all pairs by the rules held, which stand below the place `end`.
fn made(steps: usize, t: &Tables, end: usize) -> Gaps {
    let mut gaps = apart(steps);
    let rules = t.xs[..end].iter().zip(&t.ys[..end]).zip(&t.cs[..end]);
    for (&level, ((&x, &y), &c)) in t.levels[..end].iter().zip(rules) {
        if level != 0 {
            let cell = &mut gaps[usize::from(x)][usize::from(y)];
            *cell = i64::from(c).min(*cell);
        }
    }
    for by in 0..steps {
        let further = gaps[by];
        for row in &mut gaps[..steps] {
            let near = row[by];
            if near != NO_LIMIT {
                lower(&mut row[..steps], near, &further);
            }
        }
    }
    gaps
}

/// Lowers a row to what it has over a step that is so near, and from which others are so far.
fn lower(row: &mut [i64], near: i64, further: &[i64]) {
    for (cell, &far) in row.iter_mut().zip(further) {
        if far != NO_LIMIT && near + far < *cell {
            *cell = near + far;
        }
    }
}

/// Writes the cells that are kept.
fn write(steps: usize, t: &mut Tables, gaps: &Gaps) {
    for (row, made) in t.gaps[..steps].iter_mut().zip(gaps) {
        row[..steps].copy_from_slice(&made[..steps]);
    }
}

pub fn open(steps: usize, t: &mut Tables) {
    if is_kept(steps) {
        write(steps, t, &apart(steps));
    }
}

/// Whether every cell that is kept has the limit of its pair.
pub fn are_right(steps: usize, t: &Tables, end: usize) -> bool {
    if !is_kept(steps) {
        return true;
    }
    let gaps = made(steps, t, end);
    t.gaps[..steps].iter().zip(&gaps).all(|(row, made)| row[..steps] == made[..steps])
}

/// Makes the gap table afresh.
pub fn remake(steps: usize, t: &mut Tables, end: usize) {
    if is_kept(steps) {
        let gaps = made(steps, t, end);
        write(steps, t, &gaps);
    }
}

/// Brings it up to date with a rule that fits: every pair may have a way over it.
pub fn add(steps: usize, t: &mut Tables, rule: Rule) {
    let (x, y, c) = (rule.first as usize, rule.second as usize, i64::from(rule.amount));
    if !is_kept(steps) || t.gaps[x][y] <= c {
        return;
    }
    let further = t.gaps[y];
    for row in &mut t.gaps[..steps] {
        let near = row[x];
        if near != NO_LIMIT {
            lower(&mut row[..steps], near + c, &further);
        }
    }
}
