//! The gap table of one yard, from the definition: the limits of all pairs, by sums of the rules' amounts along ways over more and more steps (Floyd and Warshall).

use super::sound::rules;
use crate::office::{Office, NO_LIMIT, YARD};
use reader::Rule;

/// How many steps there are, where no more than one yard has: then the gap table is kept.
pub fn yard(office: &Office) -> Option<usize> {
    Some(office.counts().steps as usize).filter(|steps| *steps <= YARD)
}

/// For each pair x, y the least c for which day(x) - day(y) <= c in every arrangement; nothing where there is none. The rules have an arrangement.
pub fn limits(steps: usize, rules: &[Rule]) -> Vec<Vec<Option<i64>>> {
    let mut limits = vec![vec![None; steps]; steps];
    for (step, row) in limits.iter_mut().enumerate() {
        row[step] = Some(0);
    }
    for rule in rules {
        lower(&mut limits[rule.x][rule.y], Some(rule.c));
    }
    for by in 0..steps {
        for x in 0..steps {
            for y in 0..steps {
                let way = limits[x][by].and_then(|one| limits[by][y].map(|other| one + other));
                lower(&mut limits[x][y], way);
            }
        }
    }
    limits
}

fn lower(limit: &mut Option<i64>, other: Option<i64>) {
    if let Some(sum) = other {
        *limit = Some(limit.map_or(sum, |so_far| so_far.min(sum)));
    }
}

/// Each cell that is kept, with its row, its column and what it must have. The rules held are within bounds.
fn kept(office: &Office) -> Vec<(usize, usize, i64)> {
    let steps = match yard(office) {
        Some(steps) => steps,
        None => return Vec::new(),
    };
    let limits = limits(steps, &rules(office));
    let pairs = (0..steps).flat_map(|x| (0..steps).map(move |y| (x, y)));
    pairs.map(|(x, y)| (x, y, limits[x][y].unwrap_or(NO_LIMIT))).collect()
}

/// Whether every cell that is kept has the limit of its pair. The tables are sound.
pub fn are_right(office: &Office) -> bool {
    kept(office).into_iter().all(|(x, y, cell)| office.shelf.gaps.part()[x][y] == cell)
}

/// Writes the cells that are kept.
pub fn remake(office: &mut Office) {
    for (x, y, cell) in kept(office) {
        office.shelf.gaps.part_mut()[x][y] = cell;
    }
}
