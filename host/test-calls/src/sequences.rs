//! Generated sequences. A call is chosen with the office as the calls before left it at hand, so that rules can be tight and rings real; what is chosen is
//! written out in full, and can be made again without its beginning.

use crate::acts::Act;
use crate::commands::{self, Script};
use crate::engine::{Given, CONFLICT};
use crate::office::{Office, Place, NO_LIMIT, STEPS, STEPS_BEFORE, YARD};
use common::Random;
use planner::calls::Rule;

#[derive(Clone, Copy, PartialEq, Eq, Debug)]
pub enum Kind {
    /// Few steps and small amounts.
    Small,
    /// Amounts around 0, rules that the days leave nothing to spare, equal rules, self rules.
    Ties,
    /// Amounts and step numbers at their bounds and past them.
    Edges,
    /// Many marks.
    Levels,
    /// Many watched rules, and what follows for them.
    Watching,
    /// Many steps, and rules that hidden days keep, most of them.
    Wide,
    /// The caller spoils a cell or lends too little, now and then.
    Spoiled,
    /// Script commands and the other calls.
    Mixed,
    /// A chain over all steps with the smallest amount, and what closes it.
    Chain,
    /// Tables that are nearly full, by calls and by script commands.
    Brim,
    /// Every table to its full bound and one past it.
    Full,
    /// Ways of a few rules that run beside each other, and rules that close them.
    Ways,
    /// As many steps as one yard has, fewer, and one or two more; rules at the limits of their pairs.
    Yard,
}

impl Kind {
    pub const ALL: [Kind; 13] = {
        use Kind::*;
        [Small, Ties, Edges, Levels, Watching, Wide, Spoiled, Mixed, Chain, Brim, Full, Ways, Yard]
    };

    /// The kind of a sequence by its place among all: the dear ones are few.
    pub fn of(place: u64) -> Kind {
        use Kind::*;
        match place % 4_000 {
            n if n % 1_000 == 700 => Full,
            n if n % 400 == 100 => Chain,
            n if n % 125 == 10 => Brim,
            n if n % 40 == 7 => Wide,
            n => [Small, Ties, Edges, Levels, Spoiled, Mixed, Ways, Watching, Yard][n as usize % 9],
        }
    }
}

/// Writes one sequence.
pub struct Writer {
    pub kind: Kind,
    pub random: Random,
    /// Acts that come next, before any other is chosen; the last one first.
    plan: Vec<Act>,
    /// How many more are chosen after that.
    left: usize,
    /// The newest refused rule with its ring.
    pub refused: Option<(Rule, Vec<u32>)>,
    /// How the last damage is undone.
    pub undo: Option<Act>,
    hidden: Vec<i64>,
    script: Script,
}

impl Writer {
    pub fn new(kind: Kind, seed: u64) -> Writer {
        let mut random = Random::new(seed.wrapping_mul(16).wrapping_add(kind as u64));
        let steps = match kind {
            Kind::Small => 1 + random.below(8),
            Kind::Spoiled | Kind::Yard => 1 + random.below(YARD + 2),
            Kind::Ties => 1 + random.below(5),
            Kind::Edges => random.pick(&[1, 2, 3, YARD, YARD + 1, STEPS_BEFORE, STEPS - 1, STEPS]),
            Kind::Levels | Kind::Watching => 2 + random.below(5),
            Kind::Wide => 20 + random.below(STEPS - 19),
            Kind::Ways => 3 + random.below(14),
            Kind::Mixed | Kind::Chain | Kind::Brim => STEPS,
            // Every other one over all steps.
            Kind::Full => [STEPS, 3, STEPS, YARD, STEPS, 40, STEPS, STEPS_BEFORE][(seed / 1_000 % 8) as usize],
        };
        let span = random.pick(&[5, 300, 900_000]);
        let hidden = (0..steps).map(|_| random.between(0, span)).collect();
        let left = match kind {
            Kind::Levels => 30 + random.below(80),
            Kind::Mixed => 20 + random.below(60),
            Kind::Brim => 30,
            Kind::Chain | Kind::Full => 12,
            Kind::Wide => 60 + random.below(200),
            Kind::Ways | Kind::Yard => 20 + random.below(60),
            _ => 8 + random.below(50),
        };
        let script = Script::new(kind == Kind::Mixed, &mut random);
        let mut writer = Writer { kind, random, plan: Vec::new(), left, refused: None, undo: None, hidden, script };
        writer.plan = writer.opening(steps);
        writer.plan.reverse();
        writer
    }

    /// What every sequence of the kind begins with.
    fn opening(&mut self, steps: usize) -> Vec<Act> {
        match self.kind {
            Kind::Chain => self.chain(),
            Kind::Full => self.full(steps),
            Kind::Brim => self.brim(),
            // On tables that mean nothing.
            _ if self.random.chance(30) => Vec::new(),
            Kind::Mixed => vec![Act::Start],
            Kind::Ways => {
                let rules = (0..2 * steps).map(|at| Act::Add(leading_on(&mut self.random, at % (steps - 1), steps)));
                [Act::Open(steps as u32)].into_iter().chain(rules).collect()
            }
            _ => vec![Act::Open(steps as u32)],
        }
    }

    /// The chain's rules in order, from its end, or in no order; then the rule that closes it, which fits where one of the chain is withdrawn, and that one fits no more.
    /// Planning the last two from scratch takes long, so most of them go over fewer steps.
    fn chain(&mut self) -> Vec<Act> {
        let order = self.random.below(3);
        let steps = if order == 0 { STEPS } else { self.random.pick(&[STEPS, STEPS_BEFORE, STEPS_BEFORE]) };
        let last = steps - 1;
        let mut rules: Vec<Rule> = (0..last).map(|at| rule(at, at + 1, -1_000_000)).collect();
        match order {
            0 => (),
            1 => rules.reverse(),
            _ => shuffle(&mut rules, &mut self.random),
        }
        let mut acts = vec![Act::Open(steps as u32), Act::Watch(rule(0, last, -1_000_000)), Act::Watch(rule(last, 0, 1_000_000))];
        acts.extend(rules.iter().copied().map(Act::Add));
        // Over all steps its ring fills a list that has no place too many.
        acts.extend([Act::Consequences, Act::Mark, Act::LastDay, Act::Lend(Place::One, STEPS), Act::Lend(Place::Two, STEPS)]);
        acts.extend([Act::Trial(rule(last, 0, 1_000_000)), Act::Add(rule(last, 0, 1_000_000)), Act::LastDay]);
        let gone = self.random.below(last);
        acts.extend([Act::Withdraw(gone as u32), Act::LastDay, Act::Add(rule(last, 0, 1_000_000)), Act::Add(rules[gone]), Act::LastDay]);
        acts
    }

    /// A script with a few names and rules; then the caller fills the tables but for some places.
    fn brim(&mut self) -> Vec<Act> {
        let mut acts = vec![Act::Start, Act::Command("(set-logic QF_IDL)".into())];
        acts.extend(["cut", "dry", "turn"].map(|name| Act::Command(format!("(declare-fun {} () Int)", name).into())));
        acts.extend([Act::Add(rule(0, 1, -2)), Act::Add(rule(1, 2, -3)), Act::Mark]);
        let (spare, unwatched, unmarked) = (self.random.below(9), self.random.below(4), self.random.below(4));
        let loose = self.random.pick(&[rule(0, 0, 0), rule(7, 200, 1_000_000), rule(2, 0, 5)]);
        acts.extend([Act::Hold(loose, 4_094 - spare), Act::Follow(rule(2, 0, 4), 1_024 - unwatched)]);
        acts.push(Act::Command(format!("(push {})", 63 - unmarked).into()));
        acts
    }

    /// All watched rules, all marks and all rules, each with one too many; then one rule goes, and there is one place again.
    fn full(&mut self, steps: usize) -> Vec<Act> {
        let mut acts = vec![Act::Open(steps as u32)];
        for count in 0..=1_024 {
            let any = self.kept_rule(count % 3 > 0);
            acts.push(Act::Watch(any));
        }
        // The caller writes most of the rules: they are dear to add one by one.
        let filler = self.kept_rule(true);
        acts.extend([Act::Add(filler), Act::Hold(filler, 3_000)]);
        for count in 0..=1_095 {
            let rule = self.kept_rule(true);
            acts.push(Act::Add(rule));
            if count % 17 == 0 {
                acts.push(Act::Mark);
            }
            if count == 500 {
                acts.push(Act::Consequences);
            }
        }
        let rule = self.kept_rule(false);
        let conflict = Rule { first: 1, second: 1, amount: -1 };
        acts.extend([Act::Trial(rule), Act::Mark, Act::Consequences, Act::RingCheck(conflict, vec![4_096]), Act::RingCheck(rule, vec![4_096, 3])]);
        let (gone, again) = (self.random.below(4_096) as u32, self.kept_rule(true));
        acts.extend([Act::Withdraw(4_096), Act::Withdraw(gone), Act::Withdraw(gone), Act::LastDay]);
        acts.extend([Act::RingCheck(conflict, vec![4_096]), Act::RingCheck(conflict, vec![gone]), Act::Trial(conflict), Act::Add(again), Act::Add(again), Act::LastDay]);
        acts
    }

    /// A rule that the hidden days keep, with little to spare or much, or one that they need not.
    fn kept_rule(&mut self, keep: bool) -> Rule {
        let (x, y) = (self.random.below(self.hidden.len()), self.random.below(self.hidden.len()));
        let gap = self.hidden[x] - self.hidden[y];
        let spare = self.random.pick(&[0, 0, 1, 5, 300]);
        rule(x, y, if keep { gap + spare } else { gap - spare })
    }

    /// The next act, or nothing at the end.
    pub fn next(&mut self, office: &Office) -> Option<Act> {
        if let Some(act) = self.plan.pop() {
            return Some(act);
        }
        if self.left == 0 {
            return None;
        }
        self.left -= 1;
        let spoilt = match self.kind {
            Kind::Spoiled => 250,
            Kind::Mixed => 60,
            _ => 0,
        };
        if self.random.chance(spoilt) {
            return Some(self.spoil(office));
        }
        if self.kind == Kind::Mixed && self.random.chance(700) {
            return Some(self.script.next(&mut self.random));
        }
        if self.kind == Kind::Brim && self.random.chance(500) {
            return Some(commands::at_the_brim(&mut self.random));
        }
        Some(self.call(office))
    }

    /// Notes what a call gave.
    pub fn note(&mut self, act: &Act, given: Given, office: &Office) {
        let length = given.one as usize;
        match act {
            Act::Add(rule) if given.number == CONFLICT => self.refused = Some((*rule, office.one.part()[..length].to_vec())),
            Act::Trial(rule) if given.number == CONFLICT => self.refused = Some((*rule, office.two.part()[..length].to_vec())),
            _ => (),
        }
    }

    fn call(&mut self, office: &Office) -> Act {
        // How often each: Open, Watch, Add, Mark, Back, Withdraw, Trial, Consequences, Ring check, Last day, Gap.
        let weights: [usize; 11] = match self.kind {
            Kind::Levels => [1, 2, 30, 35, 28, 20, 4, 4, 4, 8, 6],
            Kind::Watching => [1, 40, 25, 4, 4, 8, 4, 20, 2, 2, 4],
            Kind::Wide => [0, 10, 60, 5, 4, 12, 8, 2, 6, 4, 2],
            Kind::Ways => [1, 2, 50, 6, 4, 12, 20, 2, 16, 2, 8],
            Kind::Edges => [12, 14, 34, 8, 8, 12, 16, 8, 10, 8, 10],
            Kind::Mixed => [1, 12, 30, 12, 14, 24, 10, 8, 6, 14, 3],
            Kind::Yard => [1, 2, 60, 12, 8, 16, 6, 3, 3, 2, 24],
            Kind::Chain | Kind::Full | Kind::Brim => [0, 5, 20, 10, 8, 14, 20, 5, 20, 6, 3],
            _ => [2, 12, 40, 9, 8, 14, 10, 9, 12, 8, 10],
        };
        let mut chosen = self.random.below(weights.iter().sum());
        let mut which = 0;
        while chosen >= weights[which] {
            chosen -= weights[which];
            which += 1;
        }
        match which {
            0 => Act::Open(self.step_count(office)),
            1 => Act::Watch(self.rule(office)),
            2 => Act::Add(self.rule(office)),
            3 => Act::Mark,
            4 => Act::Back,
            5 => self.withdraw(office),
            6 => Act::Trial(self.rule(office)),
            7 => Act::Consequences,
            8 => self.ring_check(office),
            9 => Act::LastDay,
            _ => self.gap(office),
        }
    }

    /// A pair of steps, now and then one of them none. Some of these would be steps, were they cut to 16 bits.
    fn gap(&mut self, office: &Office) -> Act {
        let steps = office.counts().steps.clamp(1, STEPS as u32);
        let (x, y) = (self.random.below(steps as usize) as u32, self.random.below(steps as usize) as u32);
        let past = self.random.pick(&[steps, steps + 1, YARD as u32 - 1, YARD as u32, 65_536, 65_537, u32::MAX]);
        match self.random.below(12) {
            0 => Act::Gap(past, y),
            1 => Act::Gap(x, past),
            2 => Act::Gap(x, x),
            _ => Act::Gap(x, y),
        }
    }

    /// An amount by which a rule x, y, c says nothing more than the others do, or a little; or with which it just fits, or does not.
    fn at_the_limit(&mut self, office: &Office, x: usize, y: usize) -> i64 {
        let cell = |x: usize, y: usize| office.shelf.gaps.part().get(x).and_then(|row| row.get(y)).copied().filter(|cell| *cell != NO_LIMIT);
        match (cell(x, y), cell(y, x)) {
            (Some(limit), _) if self.random.chance(500) => limit.clamp(-1_000_000, 1_000_000) + self.random.between(-2, 1),
            (_, Some(back)) => -back.clamp(-1_000_000, 1_000_000) + self.random.pick(&[-1, 0, 1, 5]),
            _ => self.random.between(-4, 6),
        }
    }

    /// A rule that is held goes, often one of the newest ring; now and then there is none. Often it is added again, or what was refused because of it.
    fn withdraw(&mut self, office: &Office) -> Act {
        let held = rules_lent(office);
        let (refused, ring) = self.refused.clone().map_or((None, Vec::new()), |(rule, ring)| (Some(rule), ring));
        if held.is_empty() || self.random.chance(100) {
            // One of them would be held, were it cut to 16 bits.
            let (next, cut) = (office.next_number(), 65_536 + held.first().copied().unwrap_or(0));
            return Act::Withdraw(self.random.pick(&[next, next + 1, office.counts().rules, 4_095, 4_096, cut, u32::MAX]));
        }
        let of_ring: Vec<u32> = ring.into_iter().skip(1).filter(|number| held.contains(number)).collect();
        let by_ring = !of_ring.is_empty() && self.random.chance(400);
        let number = self.random.pick(if by_ring { &of_ring } else { &held });
        match self.random.below(10) {
            0..=2 => self.plan.push(Act::Add(office.rule(number as usize))),
            3 | 4 => self.plan.extend(refused.map(Act::Add)),
            _ => (),
        }
        Act::Withdraw(number)
    }

    fn step_count(&mut self, office: &Office) -> u32 {
        let all = STEPS as u32;
        match self.kind {
            Kind::Edges => self.random.pick(&[0, 1, 2, 3, all - 1, all, all + 1, 65_536, u32::MAX]),
            Kind::Mixed => self.random.pick(&[all, all, all - 1, STEPS_BEFORE as u32, 3]),
            Kind::Yard => self.random.pick(&[1, 15, 16, 16, 17, 18]),
            _ => self.random.pick(&[0, 1, 2, 4, 8, office.counts().steps, all + 1]),
        }
    }

    /// A rule as the kind has them.
    pub fn rule(&mut self, office: &Office) -> Rule {
        let steps = (office.counts().steps as usize).clamp(1, STEPS);
        let held = if self.random.chance(80) { rules_lent(office) } else { Vec::new() };
        if !held.is_empty() {
            // One that is held, as it is, turned round or with another amount.
            let Rule { first, second, amount } = office.rule(self.random.pick(&held) as usize);
            let other = amount.wrapping_add(self.random.between(-1, 1) as i32);
            return self.random.pick(&[Rule { first, second, amount }, Rule { first, second, amount: other }, Rule { first: second, second: first, amount: !other }]);
        }
        let past = match self.kind {
            Kind::Edges => 120,
            Kind::Full | Kind::Chain => 0,
            _ => 15,
        };
        if self.random.chance(past) {
            // Some of them would be steps, were they cut to 16 bits.
            let bad = self.random.pick(&[steps, steps + 1, STEPS, 65_535, 65_536, 65_537, 1 << 31, u32::MAX as usize]);
            let good = self.random.below(steps);
            let amount = self.random.pick(&[0, 1_000_001]);
            return if self.random.chance(500) { rule(bad, good, amount) } else { rule(good, bad, amount) };
        }
        if self.kind == Kind::Ways && steps > 1 && self.random.chance(900) {
            let from = self.random.below(steps - 1);
            return if self.random.chance(400) { leading_on(&mut self.random, from, steps) } else { closing(&mut self.random, steps, office) };
        }
        // In scripts few steps have names.
        let among = match self.kind {
            Kind::Mixed => steps.min(12),
            Kind::Brim => steps.min(3),
            _ => steps,
        };
        let (x, y) = (self.random.below(among), self.random.below(among));
        let y = if self.random.chance(40) { x } else { y };
        let day = |step: usize| office.shelf.days.part().get(step).copied().map_or(0, i64::from);
        let tight = (day(x) - day(y)).clamp(-1_000_001, 1_000_001);
        let amount = match self.kind {
            Kind::Ties if self.random.chance(500) => tight + self.random.between(-1, 1),
            Kind::Ties => self.random.pick(&[-1, 0, 0, 0, 1]),
            Kind::Edges => self.random.pick(&[
                0, 1, -1, 999_999, -999_999, 1_000_000, 1_000_000, -1_000_000, -1_000_000, 1_000_001, -1_000_001, i32::MIN.into(), i32::MAX.into(), tight, tight - 1,
            ]),
            Kind::Wide | Kind::Full => {
                let keep = self.random.chance(900);
                let kept = self.kept_rule(keep);
                return kept;
            }
            Kind::Chain => self.random.pick(&[1_000_000, -1_000_000, 0, -1]),
            Kind::Watching | Kind::Levels => self.random.between(-4, 6),
            Kind::Yard if self.random.chance(700) => self.at_the_limit(office, x, y),
            _ if self.random.chance(200) => tight + self.random.between(-2, 2),
            _ => self.random.between(-3, 4),
        };
        rule(x, y, amount)
    }
}

/// The numbers of the rules held, as far as all their columns are lent.
pub fn rules_lent(office: &Office) -> Vec<u32> {
    let lent = [Place::Xs, Place::Ys, Place::Cs].map(|place| office.lent(place)).into_iter().fold(usize::MAX, usize::min);
    office.numbers().into_iter().filter(|number| (*number as usize) < lent).collect()
}

/// A rule that leads on by a step or two and asks for little. The step is not the last one.
pub fn leading_on(random: &mut Random, from: usize, steps: usize) -> Rule {
    rule(from, (from + random.pick(&[1, 1, 2])).min(steps - 1), random.pick(&[-1, -1, -1, 0, -2]))
}

/// A rule from a late step to an early one, which closes the ways between them, most often with days lacking.
pub fn closing(random: &mut Random, steps: usize, office: &Office) -> Rule {
    let (early, late) = (random.below(1 + steps / 3), steps - 1 - random.below(1 + steps / 3).min(steps - 1));
    let day = |step: usize| office.shelf.days.part().get(step).copied().map_or(0, i64::from);
    rule(late, early, (day(late) - day(early)).clamp(-1_000, 1_000) + random.pick(&[-1, -1, -1, -1, -2, -3, -3, 0, 1]))
}

pub fn rule(first: usize, second: usize, amount: i64) -> Rule {
    Rule { first: first as u32, second: second as u32, amount: amount as i32 }
}

pub fn shuffle<T>(list: &mut [T], random: &mut Random) {
    for at in (1..list.len()).rev() {
        list.swap(at, random.below(at + 1));
    }
}
