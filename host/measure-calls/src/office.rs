//! Tables with everything that a call is lent, and the two engines that carry calls out on them.

use crate::byhand;
use planner::bounds::{RULES, STEPS, WATCHED, YARD_STEPS};
use planner::calls::{self, Counts, Gaps, Rule, Tables};

/// The calls of one engine.
pub struct Engine {
    open: fn(&mut Counts, &mut Tables, u32) -> u32,
    watch: fn(&mut Counts, &mut Tables, Rule) -> u32,
    mark: fn(&mut Counts, &mut Tables) -> u32,
    back: fn(&mut Counts, &mut Tables) -> u32,
    withdraw: fn(&mut Counts, &mut Tables, u32) -> u32,
    add: fn(&mut Counts, &mut Tables, &mut [u32], Rule, &mut u32) -> u32,
    trial: fn(&Counts, &mut Tables, &mut [u32], &mut [u32], Rule, &mut u32) -> u32,
    consequences: fn(&Counts, &mut Tables, &mut [u32], &mut [u32], &mut u32, &mut u32) -> u32,
    last_day: fn(&Counts, &mut Tables, &mut u32) -> u32,
    gap: fn(&Counts, &mut Tables, u32, u32, &mut u32, &mut i64) -> u32,
    ring_check: fn(&Counts, &mut Tables, &[u32], Rule, &mut u32) -> u32,
}

/// The proved library.
pub static LIBRARY: Engine = Engine {
    open: calls::open,
    watch: calls::watch,
    mark: calls::mark,
    back: calls::back,
    withdraw: calls::withdraw,
    add: calls::add,
    trial: calls::trial,
    consequences: calls::consequences,
    last_day: calls::last_day,
    gap: calls::gap,
    ring_check: calls::ring_check,
};

/// The same calls written by hand.
pub static BY_HAND: Engine = Engine {
    open: byhand::open,
    watch: byhand::watch,
    mark: byhand::mark,
    back: byhand::back,
    withdraw: byhand::withdraw,
    add: byhand::add,
    trial: byhand::trial,
    consequences: byhand::consequences,
    last_day: byhand::last_day,
    gap: byhand::gap,
    ring_check: byhand::ring_check,
};

/// The same calls, with any ring of a conflict.
pub static ANY_RING: Engine = Engine { add: byhand::add_with_any_ring, ..BY_HAND };

#[derive(Clone, Copy, Debug)]
pub enum Call {
    Open(u32),
    Watch(Rule),
    Mark,
    Back,
    Withdraw(u32),
    Add(Rule),
    Trial(Rule),
    Consequences,
    LastDay,
    Gap(u32, u32),
    /// Of so many places of list one.
    RingCheck(Rule, usize),
}

/// The number given back, the values, and the limit of Gap.
#[derive(Clone, Copy, Debug, PartialEq, Eq)]
pub struct Outcome {
    pub number: u32,
    pub values: [u32; 2],
    pub limit: i64,
}

/// Days for every step that 16 bits can say.
pub type WideDays = [u32; 1 << 16];

/// The counts, the tables and two lists.
#[derive(Clone, Debug, PartialEq, Eq)]
pub struct Office {
    pub counts: Counts,
    pub xs: Vec<u16>,
    pub ys: Vec<u16>,
    pub cs: Vec<i32>,
    pub days: Vec<u32>,
    pub levels: Vec<u8>,
    pub wxs: Vec<u16>,
    pub wys: Vec<u16>,
    pub wcs: Vec<i32>,
    pub gaps: Box<Gaps>,
    pub one: Vec<u32>,
    pub two: Vec<u32>,
}

impl Office {
    /// Tables with just the room that is asked for, with nothing in them, and that many steps.
    pub fn new(steps: usize) -> Office {
        let mut office = Office::blank(steps);
        office.remake_gaps();
        office
    }

    /// The same with a gap table that says nothing.
    fn blank(steps: usize) -> Office {
        Office {
            counts: Counts { steps: steps as u32, rules: 0, marks: 0, watched: 0, last: 0 },
            xs: vec![0; RULES],
            ys: vec![0; RULES],
            cs: vec![0; RULES],
            days: vec![0; STEPS],
            levels: vec![0; RULES],
            wxs: vec![0; WATCHED],
            wys: vec![0; WATCHED],
            wcs: vec![0; WATCHED],
            gaps: Box::new([[7; YARD_STEPS]; YARD_STEPS]),
            one: vec![0; WATCHED],
            two: vec![0; WATCHED],
        }
    }

    /// Makes the gap table of the rules held, where it is kept.
    pub fn remake_gaps(&mut self) {
        let Office { counts, xs, ys, cs, days, levels, wxs, wys, wcs, gaps, .. } = self;
        byhand::gaps::remake(counts.steps as usize, &mut Tables { xs, ys, cs, days, levels, wxs, wys, wcs, gaps }, RULES);
    }

    /// Holds a rule at the lowest free place, as one from before all marks. There is a free place, and none below the rules held. The gap table is made after the last one.
    pub fn hold(&mut self, rule: Rule) {
        let at = self.counts.rules as usize;
        self.xs[at] = rule.first as u16;
        self.ys[at] = rule.second as u16;
        self.cs[at] = rule.amount;
        self.levels[at] = 1;
        self.counts.rules += 1;
    }

    pub fn watch(&mut self, rule: Rule) {
        let at = self.counts.watched as usize;
        self.wxs[at] = rule.first as u16;
        self.wys[at] = rule.second as u16;
        self.wcs[at] = rule.amount;
        self.counts.watched += 1;
    }

    /// Carries a call out.
    pub fn carry(&mut self, engine: &Engine, call: Call) -> Outcome {
        let Office { counts, xs, ys, cs, days, levels, wxs, wys, wcs, gaps, one, two } = self;
        let t = &mut Tables { xs, ys, cs, days, levels, wxs, wys, wcs, gaps };
        let (mut values, mut limit) = ([0; 2], 0);
        let [first, second] = &mut values;
        let number = match call {
            Call::Open(steps) => (engine.open)(counts, t, steps),
            Call::Watch(rule) => (engine.watch)(counts, t, rule),
            Call::Mark => (engine.mark)(counts, t),
            Call::Back => (engine.back)(counts, t),
            Call::Withdraw(number) => (engine.withdraw)(counts, t, number),
            Call::Add(rule) => (engine.add)(counts, t, one, rule, first),
            Call::Trial(rule) => (engine.trial)(counts, t, one, two, rule, first),
            Call::Consequences => (engine.consequences)(counts, t, one, two, first, second),
            Call::LastDay => (engine.last_day)(counts, t, first),
            Call::Gap(x, y) => (engine.gap)(counts, t, x, y, first, &mut limit),
            Call::RingCheck(rule, places) => (engine.ring_check)(counts, t, &one[..places.min(one.len())], rule, first),
        };
        Outcome { number, values, limit }
    }

    /// The days, with a place for every number of 16 bits.
    pub fn wide_days(&self) -> Box<WideDays> {
        let mut days = vec![0; 1 << 16];
        days[..STEPS].copy_from_slice(&self.days[..STEPS]);
        days.into_boxed_slice().try_into().expect("a place for every number")
    }

    /// One plain pass over the rules held, which stand at the first places: how many the days break. It tests nothing else: the days have a place for whatever a step
    /// is, so that no index needs a test.
    #[inline(never)]
    pub fn plain_pass(&self, days: &WideDays) -> u32 {
        let rules = self.counts.rules as usize;
        let day = |step: u16| i64::from(days[usize::from(step)]);
        let mut broken = 0;
        for ((&x, &y), &c) in self.xs[..rules].iter().zip(&self.ys[..rules]).zip(&self.cs[..rules]) {
            broken += u32::from(day(x) - day(y) > i64::from(c));
        }
        broken
    }
}
