//! The least gains that keep the rules: each turn settles the open step of largest gain and relaxes its rules. The open steps with a gain
//! wait.

use super::chains::Chains;
use super::waiting::Waiting;
use planner::bounds::{RULES, STEPS};

pub struct Spread<'a> {
    pub days: &'a [u32],
    pub ys: &'a [u16],
    pub cs: &'a [i32],
    pub chains: &'a Chains<RULES>,
    /// The gain of each step.
    pub gains: [i64; STEPS],
    /// The rule that each gain came by.
    by: [u16; STEPS],
    waiting: Waiting,
}

impl<'a> Spread<'a> {
    pub fn new(days: &'a [u32], ys: &'a [u16], cs: &'a [i32], chains: &'a Chains<RULES>) -> Self {
        Spread { days, ys, cs, chains, gains: [0; STEPS], by: [0; STEPS], waiting: Waiting::new() }
    }

    /// Takes all gains away.
    pub fn clear(&mut self) {
        self.gains[..self.days.len()].fill(0);
        self.waiting.clear();
    }

    /// Asks for a gain at a step that has none.
    #[inline]
    pub fn ask(&mut self, step: usize, gain: i64) {
        self.gains[step] = gain;
        self.waiting.enter(step, &self.gains);
    }

    /// Spreads the gains, until all are settled or the goal has one.
    pub fn run(&mut self, goal: Option<usize>) {
        while !self.waiting.is_empty() && goal.map_or(true, |step| self.gains[step] == 0) {
            let step = self.waiting.take(&self.gains);
            self.relax(step);
        }
    }

    /// Raises the second step of each rule of `x` as far as the rule asks.
    #[inline]
    fn relax(&mut self, x: usize) {
        let reach = i64::from(self.days[x]) + self.gains[x];
        for number in self.chains.of(x) {
            let y = usize::from(self.ys[number]);
            let asked = reach - i64::from(self.cs[number]) - i64::from(self.days[y]);
            let have = self.gains[y];
            if asked <= have {
                continue;
            }
            self.by[y] = number as u16;
            if have == 0 {
                self.ask(y, asked);
            } else {
                self.gains[y] = asked;
                self.waiting.rise(y, &self.gains);
            }
        }
    }

    /// Writes some ring of a refused rule that leads from `x` to `y`: its would-be number, then the rules by which the gain at `y` has
    /// reached `x`. Returns its length.
    pub fn ring(&self, xs: &[u16], x: usize, y: usize, number: u32, list: &mut [u32]) -> usize {
        list[0] = number;
        let mut length = 1;
        let mut step = x;
        while step != y {
            let by = self.by[step];
            list[length] = u32::from(by);
            length += 1;
            step = usize::from(xs[usize::from(by)]);
        }
        list[1..length].reverse();
        length
    }
}
