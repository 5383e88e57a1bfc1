//! The rules of each step, as chains: a link is a rule's number plus 1, and 0 ends a chain. The newest rule comes first.

use planner::bounds::STEPS;

pub struct Chains<const PLACES: usize> {
    heads: [u16; STEPS],
    nexts: [u16; PLACES],
}

impl<const PLACES: usize> Chains<PLACES> {
    pub fn new() -> Self {
        Chains { heads: [0; STEPS], nexts: [0; PLACES] }
    }

    /// The chains of the rules whose steps are these, in the order of their numbers.
    pub fn of_all(steps: &[u16]) -> Self {
        let mut chains = Chains::new();
        chains.build(steps);
        chains
    }

    /// Makes them these chains, whatever they were.
    pub fn build(&mut self, steps: &[u16]) {
        self.heads.fill(0);
        for (number, &step) in steps.iter().enumerate() {
            self.push(step, number);
        }
    }

    /// Makes them the chains of the rules held at these places, whatever they were.
    pub fn build_held(&mut self, levels: &[u8], steps: &[u16]) {
        self.heads.fill(0);
        for (number, (&level, &step)) in levels.iter().zip(steps).enumerate() {
            if level != 0 {
                self.push(step, number);
            }
        }
    }

    /// Takes a rule of a step out of its chain.
    pub fn unlink(&mut self, step: u16, number: usize) {
        let own = number as u16 + 1;
        let after = self.nexts[number];
        let mut link = self.heads[step as usize];
        if link == own {
            self.heads[step as usize] = after;
            return;
        }
        while self.nexts[usize::from(link) - 1] != own {
            link = self.nexts[usize::from(link) - 1];
        }
        self.nexts[usize::from(link) - 1] = after;
    }

    #[inline]
    pub fn push(&mut self, step: u16, number: usize) {
        let head = &mut self.heads[step as usize];
        self.nexts[number] = *head;
        *head = number as u16 + 1;
    }

    #[inline]
    pub fn is_empty(&self, step: usize) -> bool {
        self.heads[step] == 0
    }

    /// The numbers of the rules of a step.
    #[inline]
    pub fn of(&self, step: usize) -> Numbers<'_> {
        Numbers { nexts: &self.nexts, link: self.heads[step] }
    }
}

pub struct Numbers<'a> {
    nexts: &'a [u16],
    link: u16,
}

impl Iterator for Numbers<'_> {
    type Item = usize;

    #[inline]
    fn next(&mut self) -> Option<usize> {
        let number = usize::from(self.link).checked_sub(1)?;
        self.link = self.nexts[number];
        Some(number)
    }
}
