//! The steps that wait with their gains, in groups of sixteen places, each with a leader: a step of largest gain in the group.

use planner::bounds::STEPS;

const GROUP: usize = 16;

pub struct Waiting {
    list: [u16; STEPS],
    /// The place of each step that waits.
    places: [u16; STEPS],
    leaders: [u16; STEPS / GROUP],
    count: usize,
}

impl Waiting {
    pub fn new() -> Self {
        Waiting { list: [0; STEPS], places: [0; STEPS], leaders: [0; STEPS / GROUP], count: 0 }
    }

    #[inline]
    pub fn is_empty(&self) -> bool {
        self.count == 0
    }

    pub fn clear(&mut self) {
        self.count = 0;
    }

    /// Puts a step that does not wait yet at the end.
    #[inline]
    pub fn enter(&mut self, step: usize, gains: &[i64; STEPS]) {
        let place = self.count;
        self.list[place] = step as u16;
        self.places[step] = place as u16;
        if place % GROUP == 0 {
            self.leaders[place / GROUP] = step as u16;
        } else {
            self.lead(step, place / GROUP, gains);
        }
        self.count += 1;
    }

    /// The gain of a step has risen.
    #[inline]
    pub fn rise(&mut self, step: usize, gains: &[i64; STEPS]) {
        let place = usize::from(self.places[step]);
        if place < self.count && usize::from(self.list[place]) == step {
            self.lead(step, place / GROUP, gains);
        }
    }

    /// Takes a step of largest gain out; the last one gets its place.
    #[inline]
    pub fn take(&mut self, gains: &[i64; STEPS]) -> usize {
        self.count -= 1;
        let end = self.count / GROUP;
        let group = largest(&self.leaders[..=end], gains);
        let step = usize::from(self.leaders[group]);
        let place = usize::from(self.places[step]);
        let last = self.list[self.count];
        let ended = self.leaders[end];
        self.list[place] = last;
        self.places[usize::from(last)] = place as u16;
        self.regroup(group, gains);
        if ended == last {
            self.regroup(end, gains);
        }
        step
    }

    #[inline]
    fn lead(&mut self, step: usize, group: usize, gains: &[i64; STEPS]) {
        if gains[usize::from(self.leaders[group])] < gains[step] {
            self.leaders[group] = step as u16;
        }
    }

    /// Finds the leader of a group afresh, where the group has steps.
    #[inline]
    fn regroup(&mut self, group: usize, gains: &[i64; STEPS]) {
        let from = group * GROUP;
        if from < self.count {
            let members = &self.list[from..self.count.min(from + GROUP)];
            self.leaders[group] = members[largest(members, gains)];
        }
    }
}

/// The first place that has a step of largest gain.
#[inline]
fn largest(steps: &[u16], gains: &[i64; STEPS]) -> usize {
    let (mut best, mut top) = (0, gains[usize::from(steps[0])]);
    for (place, &step) in steps.iter().enumerate().skip(1) {
        let gain = gains[usize::from(step)];
        if gain > top {
            best = place;
            top = gain;
        }
    }
    best
}
