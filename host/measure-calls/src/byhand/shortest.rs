//! The reason of a refused rule, the shortest of its rings. A layer has for each step the least sum of what so many rules in a row from it to the refused rule's first
//! step have to spare, and what the days lack where none is below that. Each layer is made from the one before, along the chains of the rules that lead to a step; the
//! rules are found from the last layer to the first, by parts, so that few layers are kept. Steps have depths from the refused rule's second step on, and a layer is made
//! only as far down as it counts.

use super::chains::Chains;
use super::Held;
use planner::bounds::{RULES, STEPS};
use planner::calls::{Counts, Rule, Tables};

const LAYERS: usize = 6;
const SHARE: usize = 6;
const CAP: usize = SHARE * SHARE * SHARE;
const GROUP: usize = 16;
const FAR: u16 = u16::MAX;

type Cells = [u32; LAYERS * STEPS];

struct Search<'a> {
    levels: &'a [u8],
    xs: &'a [u16],
    ys: &'a [u16],
    cs: &'a [i32],
    days: &'a [u32],
    /// What the days lack for the refused rule.
    lack: u32,
    depths: [u16; STEPS],
}

/// Writes the reason of a refused rule: its would-be number, then the rules that lead from its second step to its first. Returns its length. The chains are used up.
#[inline(never)]
pub(super) fn reason(counts: &Counts, t: &Tables, held: &mut Held, rule: Rule, list: &mut [u32]) -> usize {
    let (end, x, y) = (held.end, rule.first as usize, rule.second as usize);
    let lack = super::lack(t.days, rule) as u32;
    let levels = &t.levels[..end];
    let days = &t.days[..counts.steps as usize];
    let mut search = Search { levels, xs: &t.xs[..end], ys: &t.ys[..end], cs: &t.cs[..end], days, lack, depths: [FAR; STEPS] };
    search.deepen(&held.chains, x, y);
    held.chains.build_held(levels, &t.ys[..end]);
    let cells = &mut [0; LAYERS * STEPS];
    list[0] = held.next(t) as u32;
    let chains = &held.chains;
    let count = search.fewest(chains, x, y, cells);
    if count > 0 {
        search.begin(x, cells);
        let (way, part) = (Way { chains, goal: count }, Part { low: 0, high: count, at: 0, cap: CAP });
        search.descend(&way, part, (y, lack.into()), cells, &mut list[1..=count]);
    }
    count + 1
}

/// The rules by their second steps, and how many there are in the way that is looked for.
struct Way<'a> {
    chains: &'a Chains<RULES>,
    goal: usize,
}

/// The rules of a way between two layers, where the lower one stands, and how many at most are found above a layer that is kept for them.
struct Part {
    low: usize,
    high: usize,
    at: usize,
    cap: usize,
}

/// Where to look on for the key: past the groups that do not have it.
fn skip_other(list: &[u16], key: u16, mut from: usize) -> usize {
    while from + GROUP <= list.len() && !list[from..from + GROUP].iter().fold(false, |met, &one| met | (one == key)) {
        from += GROUP;
    }
    from
}

impl Search<'_> {
    #[inline]
    fn spare(&self, number: usize) -> u64 {
        let day = |step: u16| i64::from(self.days[usize::from(step)]);
        (day(self.ys[number]) + i64::from(self.cs[number]) - day(self.xs[number])) as u64
    }

    /// Gives depths level by level, by the chains of first steps, until the refused rule's first step has one; all others lie one deeper.
    fn deepen(&mut self, chains: &Chains<RULES>, x: usize, y: usize) {
        let steps = self.days.len();
        self.depths[y] = 0;
        let mut level = 0;
        while usize::from(level) < steps && self.depths[x] == FAR {
            let mut step = skip_other(&self.depths[..steps], level, 0);
            while step < steps {
                if self.depths[step] == level {
                    for number in chains.of(step) {
                        let second = usize::from(self.ys[number]);
                        if self.depths[second] == FAR && self.spare(number) < self.lack.into() {
                            self.depths[second] = level + 1;
                        }
                    }
                }
                step = skip_other(&self.depths[..steps], level, step + 1);
            }
            level += 1;
        }
        self.depths[..steps].iter_mut().for_each(|depth| *depth = (*depth).min(level + 1));
    }

    /// Makes the first layer in the first cells: no rule, from the first step of the refused rule.
    fn begin(&self, x: usize, cells: &mut Cells) {
        cells[..self.days.len()].fill(self.lack);
        cells[x] = 0;
    }

    /// Makes the layer after the one at a place behind it, for steps no deeper than the limit, and copies it to that place.
    fn next(&self, chains: &Chains<RULES>, limit: usize, at: usize, cells: &mut Cells) {
        let steps = self.days.len();
        let (layer, after) = cells[at..at + 2 * STEPS].split_at_mut(STEPS);
        let (layer, after) = (&mut layer[..steps], &mut after[..steps]);
        after.fill(self.lack);
        for (group, cells) in layer.chunks(GROUP).enumerate() {
            if cells.len() == GROUP && cells.iter().fold(self.lack, |least, &cell| least.min(cell)) == self.lack {
                continue;
            }
            for (place, &rest) in cells.iter().enumerate().filter(|(_, &rest)| rest < self.lack) {
                for number in chains.of(group * GROUP + place) {
                    let first = usize::from(self.xs[number]);
                    if usize::from(self.depths[first]) > limit {
                        continue;
                    }
                    let sum = self.spare(number) + u64::from(rest);
                    if sum < u64::from(after[first]) {
                        after[first] = sum as u32;
                    }
                }
            }
        }
        layer.copy_from_slice(after);
    }

    /// How many rules the shortest way has.
    fn fewest(&self, chains: &Chains<RULES>, x: usize, y: usize, cells: &mut Cells) -> usize {
        let (mut goal, mut more) = (usize::from(self.depths[x]), 1);
        loop {
            if let Some(count) = self.within(&Way { chains, goal }, x, y, cells) {
                return count;
            }
            goal += more;
            more += more;
        }
    }

    /// The same, where it has at most so many.
    fn within(&self, way: &Way, x: usize, y: usize, cells: &mut Cells) -> Option<usize> {
        self.begin(x, cells);
        let mut count = 0;
        while cells[y] >= self.lack {
            if count == way.goal {
                return None;
            }
            self.next(way.chains, way.goal - count - 1, 0, cells);
            count += 1;
        }
        Some(count)
    }

    /// Writes the numbers of the rules of a part into the list. Returns the step where the way goes on, and what is left of the lack.
    fn descend(&self, way: &Way, part: Part, (step, left): (usize, u64), cells: &mut Cells, list: &mut [u32]) -> (usize, u64) {
        let Part { low, high, at, cap } = part;
        if high == low + 1 {
            let held = |number: usize| self.levels[number] != 0 && usize::from(self.xs[number]) == step;
            let fits = |number: usize| held(number) && self.spare(number) + u64::from(cells[at + usize::from(self.ys[number])]) < left;
            let mut number = skip_other(self.xs, step as u16, 0);
            while !fits(number) {
                number = skip_other(self.xs, step as u16, number + 1);
            }
            list[0] = number as u32;
            return (usize::from(self.ys[number]), left - self.spare(number));
        }
        let upper = ((high - low + 1) / 2).min(cap);
        let (middle, kept) = (high - upper, at + STEPS);
        cells.copy_within(at..at + self.days.len(), kept);
        for count in low..middle {
            self.next(way.chains, way.goal - count - 1, kept, cells);
        }
        let (above, below) = list.split_at_mut(upper);
        let stand = self.descend(way, Part { low: middle, high, at: kept, cap: cap / SHARE }, (step, left), cells, above);
        self.descend(way, Part { low, high: middle, at, cap }, stand, cells, below)
    }
}
