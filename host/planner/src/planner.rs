//! The planner: the eleven calls over tables that it owns.

use crate::bounds::{RULES, STEPS, WATCHED};
use crate::calls::{self, Counts, Record};
use crate::refusal::Refusal;
use crate::ring::Ring;
use crate::tables::Owned;
use crate::Rule;
use std::cell::Cell;
use std::marker::PhantomData;

/// Keeps rules over steps, and gives every step its earliest day. It owns its tables, so that they are always sound.
///
/// ```
/// use planner::{Moved, Planner, Rule};
///
/// let (cutting, drying, pressing) = (0, 1, 2);
/// let mut planner = Planner::open(3)?;
/// assert_eq!(planner.add(Rule::at_least(2, drying, cutting))?, Moved(1));
/// assert_eq!(planner.add(Rule::at_least(3, pressing, drying))?, Moved(1));
/// assert_eq!(planner.days(), [0, 2, 5]);
/// # Ok::<(), planner::Refusal>(())
/// ```
///
/// A planner can move to another thread. It is not shared between threads: one call at a time is made on one set of tables.
///
/// ```compile_fail
/// fn shared<T: Sync>(_: &T) {}
/// shared(&planner::Planner::open(1).unwrap());
/// ```
#[derive(Clone, Debug)]
pub struct Planner {
    pub(crate) counts: Counts,
    pub(crate) record: Record,
    pub(crate) owned: Owned,
    one_thread: PhantomData<Cell<()>>,
}

/// How many steps have a day different from before.
#[derive(Clone, Copy, Debug, PartialEq, Eq, PartialOrd, Ord, Hash)]
pub struct Moved(pub u32);

/// What [`Planner::trial`] says of a rule that fits.
#[derive(Clone, Debug, PartialEq, Eq)]
pub struct Trial {
    /// The days that all steps would have.
    pub days: Vec<u32>,
    /// How many steps would have another day than now.
    pub moved: Moved,
}

/// What [`Planner::consequences`] says of the watched rules, by their numbers, rising.
#[derive(Clone, Debug, PartialEq, Eq)]
pub struct Consequences {
    /// Those that hold in every arrangement of the rules held.
    pub always: Vec<u32>,
    /// Those that hold in none.
    pub never: Vec<u32>,
}

impl Planner {
    /// **Open**: so many steps, on day 0, and no rules, marks or watched rules. Refused with [`Refusal::Step`] where `steps` is not 1 to 1,024.
    ///
    /// ```
    /// use planner::Planner;
    ///
    /// assert_eq!(Planner::open(4)?.days(), [0, 0, 0, 0]);
    /// # Ok::<(), planner::Refusal>(())
    /// ```
    pub fn open(steps: u32) -> Result<Planner, Refusal> {
        let mut planner = Planner::blank();
        let number = calls::open(&mut planner.counts, &mut planner.owned.lend().0, steps);
        Refusal::judge_plain(number)?;
        Ok(planner)
    }

    /// Tables that are not opened yet.
    pub(crate) fn blank() -> Planner {
        Planner { counts: Counts::default(), record: Record::default(), owned: Owned::new(), one_thread: PhantomData }
    }

    /// **Watch**: puts a rule at the end of the watched list and gives its number there. Refused with [`Refusal::Step`], [`Refusal::Amount`], or
    /// [`Refusal::Full`] where 1,024 rules are watched.
    ///
    /// ```
    /// use planner::{Planner, Refusal, Rule};
    ///
    /// let mut planner = Planner::open(2)?;
    /// assert_eq!(planner.watch(Rule::new(0, 1, -2))?, 0);
    /// assert_eq!(planner.watch(Rule::new(1, 0, 7))?, 1);
    /// assert_eq!(planner.watch(Rule::new(1, 0, 1_000_001)), Err(Refusal::Amount));
    /// assert_eq!(planner.watched().nth(1), Some(Rule::new(1, 0, 7)));
    /// # Ok::<(), Refusal>(())
    /// ```
    pub fn watch(&mut self, rule: Rule) -> Result<u32, Refusal> {
        let watched = self.counts.watched;
        let number = calls::watch(&mut self.counts, &mut self.owned.lend().0, rule);
        Refusal::judge_plain(number)?;
        Ok(watched)
    }

    /// **Add**: holds one more rule, under the number that [`next_number`](Planner::next_number) says, brings the days to the earliest plan, and says how many steps moved.
    ///
    /// Refused with [`Refusal::Step`], [`Refusal::Amount`], [`Refusal::Full`] where 4,096 rules are held, and with [`Refusal::Conflict`] exactly when no
    /// arrangement keeps the rule along with those held; its [`Ring`], the shortest there is, says why.
    ///
    /// ```
    /// use planner::{Moved, Planner, Refusal, Rule};
    ///
    /// let mut planner = Planner::open(4)?;
    /// assert_eq!(planner.add(Rule::new(3, 3, 0))?, Moved(0));
    /// let refusal = planner.add(Rule::new(3, 3, -1)).unwrap_err();
    /// assert_eq!(refusal.ring().map(|ring| ring.numbers()), Some(&[1][..]));
    /// assert_eq!(planner.add(Rule::new(4, 0, 0)), Err(Refusal::Step));
    /// # Ok::<(), Refusal>(())
    /// ```
    pub fn add(&mut self, rule: Rule) -> Result<Moved, Refusal> {
        let (mut ring, mut value) = ([0; STEPS], 0);
        let number = calls::add(&mut self.counts, &mut self.owned.lend().0, &mut ring, rule, &mut value);
        Refusal::judge(number, || self.ring(&ring, value, rule))?;
        Ok(Moved(value))
    }

    /// **Mark**: remembers the rules held now; those that come are of a new level. Refused with [`Refusal::Full`] where 64 marks are open.
    ///
    /// ```
    /// use planner::{Planner, Rule};
    ///
    /// let mut planner = Planner::open(2)?;
    /// planner.mark()?;
    /// planner.add(Rule::new(0, 1, -2))?;
    /// planner.mark()?;
    /// assert_eq!((planner.counts().marks, planner.level(0)), (2, Some(1)));
    /// # Ok::<(), planner::Refusal>(())
    /// ```
    pub fn mark(&mut self) -> Result<(), Refusal> {
        Refusal::judge_plain(calls::mark(&mut self.counts, &mut self.owned.lend().0))
    }

    /// **Back**: drops the newest mark and every rule added after it; the days are the earliest plan of the rules left, which are those held at the mark and not withdrawn
    /// since. The watched list stays. Refused with [`Refusal::NoMark`] where no mark is open.
    ///
    /// ```
    /// use planner::{Planner, Refusal, Rule};
    ///
    /// let mut planner = Planner::open(4)?;
    /// planner.add(Rule::new(0, 1, -2))?;
    /// planner.mark()?;
    /// planner.add(Rule::new(1, 2, -3))?;
    /// assert_eq!(planner.days(), [0, 2, 5, 0]);
    /// planner.back()?;
    /// assert_eq!(planner.days(), [0, 2, 0, 0]);
    /// assert_eq!(planner.back(), Err(Refusal::NoMark));
    /// # Ok::<(), Refusal>(())
    /// ```
    pub fn back(&mut self) -> Result<(), Refusal> {
        Refusal::judge_plain(calls::back(&mut self.counts, &mut self.owned.lend().0))
    }

    /// **Withdraw**: takes the rule held under a number away, whenever it was added; the days are the earliest plan of the rest. The others keep their numbers, and the
    /// place is free for the next rule. Marks and the watched list stay, and [`back`](Planner::back) does not bring the rule back. Refused with [`Refusal::Absent`] where no
    /// rule is held under the number.
    ///
    /// ```
    /// use planner::{Planner, Refusal, Rule};
    ///
    /// let mut planner = Planner::open(4)?;
    /// planner.add(Rule::new(0, 1, -2))?;
    /// planner.add(Rule::new(1, 2, -3))?;
    /// planner.add(Rule::new(2, 3, -1))?;
    /// assert_eq!(planner.days(), [0, 2, 5, 6]);
    /// planner.withdraw(1)?;
    /// assert_eq!(planner.days(), [0, 2, 0, 1]);
    /// assert_eq!(planner.withdraw(1), Err(Refusal::Absent));
    /// // The next rule takes the free place, and so would a refused one.
    /// assert_eq!(planner.trial(Rule::new(1, 0, 1)).unwrap_err().ring().unwrap().numbers(), [1, 0]);
    /// planner.add(Rule::new(3, 0, 5))?;
    /// assert_eq!(planner.rules().nth(1), Some((1, Rule::new(3, 0, 5))));
    /// # Ok::<(), Refusal>(())
    /// ```
    pub fn withdraw(&mut self, number: u32) -> Result<(), Refusal> {
        Refusal::judge_plain(calls::withdraw(&mut self.counts, &mut self.owned.lend().0, number))
    }

    /// **Trial**: answers as [`add`](Planner::add) would, with the days that all steps would have or the same ring, and changes nothing.
    ///
    /// ```
    /// use planner::{Moved, Planner, Rule};
    ///
    /// let mut planner = Planner::open(4)?;
    /// planner.add(Rule::new(0, 1, -2))?;
    /// let trial = planner.trial(Rule::new(1, 2, -3))?;
    /// assert_eq!((trial.days, trial.moved), (vec![0, 2, 5, 0], Moved(1)));
    /// assert_eq!(planner.days(), [0, 2, 0, 0]);
    /// assert_eq!(planner.trial(Rule::new(1, 0, 1)).unwrap_err().name(), "CONFLICT");
    /// # Ok::<(), planner::Refusal>(())
    /// ```
    pub fn trial(&self, rule: Rule) -> Result<Trial, Refusal> {
        let (mut days, mut ring, mut value) = ([0; STEPS], [0; STEPS], 0);
        let number = calls::trial_over(&self.counts, &self.owned.view(), &mut days, &mut ring, rule, &mut value);
        Refusal::judge(number, || self.ring(&ring, value, rule))?;
        Ok(Trial { days: days[..self.counts.steps as usize].to_vec(), moved: Moved(value) })
    }

    /// **Consequences**: which watched rules hold in every arrangement of the rules held, and which in none.
    ///
    /// ```
    /// use planner::{Planner, Rule};
    ///
    /// let mut planner = Planner::open(4)?;
    /// planner.add(Rule::new(0, 1, -2))?;
    /// planner.add(Rule::new(1, 2, -3))?;
    /// planner.watch(Rule::new(0, 2, -5))?;
    /// planner.watch(Rule::new(0, 2, -6))?;
    /// planner.watch(Rule::new(2, 0, 4))?;
    /// let told = planner.consequences()?;
    /// assert_eq!((told.always, told.never), (vec![0], vec![2]));
    /// # Ok::<(), planner::Refusal>(())
    /// ```
    pub fn consequences(&self) -> Result<Consequences, Refusal> {
        let (mut always, mut never, mut held, mut excluded) = ([0; WATCHED], [0; WATCHED], 0, 0);
        let number = calls::consequences_over(&self.counts, &self.owned.view(), &mut always, &mut never, &mut held, &mut excluded);
        Refusal::judge_plain(number)?;
        Ok(Consequences { always: always[..held as usize].to_vec(), never: never[..excluded as usize].to_vec() })
    }

    /// **Ring check**: whether the list is a negative ring that starts with the rule under its would-be number ([`next_number`](Planner::next_number)) and goes on over
    /// rules held. It need not be the shortest.
    /// Refused with [`Refusal::Step`] and [`Refusal::Amount`].
    ///
    /// ```
    /// use planner::{Planner, Rule};
    ///
    /// let mut planner = Planner::open(4)?;
    /// planner.add(Rule::new(0, 1, -2))?;
    /// assert!(planner.ring_check(Rule::new(1, 0, 1), &[1, 0])?);
    /// assert!(!planner.ring_check(Rule::new(1, 0, 2), &[1, 0])?);
    /// # Ok::<(), planner::Refusal>(())
    /// ```
    pub fn ring_check(&self, rule: Rule, list: &[u32]) -> Result<bool, Refusal> {
        let mut verdict = 0;
        let number = calls::ring_check_over(&self.counts, &self.owned.view(), list, rule, &mut verdict);
        Refusal::judge_plain(number)?;
        Ok(verdict == 1)
    }

    /// **Last day**: the largest day of the plan, over all steps. For a script these are 1,024, whether they have a name or not.
    ///
    /// ```
    /// use planner::{Planner, Rule};
    ///
    /// let mut planner = Planner::open(4)?;
    /// assert_eq!(planner.last_day()?, 0);
    /// planner.add(Rule::new(0, 1, -2))?;
    /// planner.mark()?;
    /// planner.add(Rule::new(1, 2, -3))?;
    /// assert_eq!((planner.days(), planner.last_day()?), (&[0, 2, 5, 0][..], 5));
    /// planner.add(Rule::new(2, 0, 4)).unwrap_err();
    /// assert_eq!(planner.last_day()?, 5);
    /// planner.back()?;
    /// assert_eq!((planner.days(), planner.last_day()?), (&[0, 2, 0, 0][..], 2));
    /// # Ok::<(), planner::Refusal>(())
    /// ```
    pub fn last_day(&self) -> Result<u32, Refusal> {
        let mut day = 0;
        let number = calls::last_day_over(&self.counts, &self.owned.view(), &mut day);
        Refusal::judge_plain(number)?;
        Ok(day)
    }

    /// **Gap**: the limit of a pair of steps of one yard, which is the least `c` such that day(x) - day(y) <= c in every arrangement of the rules held; nothing where
    /// there is none. Refused with [`Refusal::Yard`] where there are more than 16 steps, and then with [`Refusal::Step`].
    ///
    /// ```
    /// use planner::{Planner, Refusal, Rule};
    ///
    /// let mut planner = Planner::open(4)?;
    /// planner.add(Rule::new(0, 1, -2))?;
    /// planner.add(Rule::new(1, 2, -3))?;
    /// // Step 2 is at least five days after step 0, and may come as late as it likes.
    /// assert_eq!((planner.gap(0, 2)?, planner.gap(2, 0)?), (Some(-5), None));
    /// planner.add(Rule::new(2, 0, 9))?;
    /// assert_eq!((planner.gap(2, 0)?, planner.gap(1, 0)?, planner.gap(2, 1)?), (Some(9), Some(6), Some(7)));
    /// assert_eq!((planner.gap(3, 3)?, planner.gap(0, 4)), (Some(0), Err(Refusal::Step)));
    /// assert_eq!(Planner::open(17)?.gap(0, 1), Err(Refusal::Yard));
    /// # Ok::<(), Refusal>(())
    /// ```
    pub fn gap(&self, x: u32, y: u32) -> Result<Option<i64>, Refusal> {
        let (mut limited, mut limit) = (0, 0);
        let number = calls::gap_over(&self.counts, &self.owned.view(), x, y, &mut limited, &mut limit);
        Refusal::judge_plain(number)?;
        Ok(if limited == 1 { Some(limit) } else { None })
    }

    /// The day of each step in the earliest plan.
    pub fn days(&self) -> &[u32] {
        &self.owned.days[..self.counts.steps as usize]
    }

    /// The rules held, each with its number, rising. How many they are is in [`counts`](Planner::counts).
    ///
    /// ```
    /// use planner::{Planner, Rule};
    ///
    /// let mut planner = Planner::open(2)?;
    /// planner.add(Rule::new(0, 1, -2))?;
    /// planner.add(Rule::new(1, 0, 7))?;
    /// assert_eq!(planner.rules().collect::<Vec<_>>(), [(0, Rule::new(0, 1, -2)), (1, Rule::new(1, 0, 7))]);
    /// planner.withdraw(0)?;
    /// assert_eq!(planner.rules().collect::<Vec<_>>(), [(1, Rule::new(1, 0, 7))]);
    /// # Ok::<(), planner::Refusal>(())
    /// ```
    pub fn rules(&self) -> impl Iterator<Item = (u32, Rule)> + '_ {
        (0..RULES as u32).filter(move |number| self.level(*number).is_some()).map(move |number| (number, self.held(number)))
    }

    /// The rule held under a number, where there is one.
    ///
    /// ```
    /// use planner::{Planner, Rule};
    ///
    /// let mut planner = Planner::open(2)?;
    /// planner.add(Rule::new(0, 1, -2))?;
    /// assert_eq!((planner.rule(0), planner.rule(1)), (Some(Rule::new(0, 1, -2)), None));
    /// # Ok::<(), planner::Refusal>(())
    /// ```
    pub fn rule(&self, number: u32) -> Option<Rule> {
        self.level(number).map(|_| self.held(number))
    }

    /// At which level the rule held under a number was added: how many marks were open then.
    pub fn level(&self, number: u32) -> Option<u32> {
        self.owned.levels.get(number as usize).and_then(|cell| u32::from(*cell).checked_sub(1))
    }

    /// The number that the next rule gets, and that a refused one would have had: the lowest under which none is held; 4,096 where there is no such place.
    ///
    /// ```
    /// use planner::{Planner, Rule};
    ///
    /// let mut planner = Planner::open(2)?;
    /// planner.add(Rule::new(0, 1, -2))?;
    /// planner.add(Rule::new(0, 1, -3))?;
    /// assert_eq!(planner.next_number(), 2);
    /// planner.withdraw(0)?;
    /// assert_eq!(planner.next_number(), 0);
    /// # Ok::<(), planner::Refusal>(())
    /// ```
    pub fn next_number(&self) -> u32 {
        self.owned.levels.iter().take_while(|cell| **cell != 0).count() as u32
    }

    /// The watched rules, by their numbers from 0.
    pub fn watched(&self) -> impl ExactSizeIterator<Item = Rule> + '_ {
        (0..self.counts.watched as usize).map(move |i| Rule::new(self.owned.wxs[i].into(), self.owned.wys[i].into(), self.owned.wcs[i]))
    }

    /// How many of each thing there are, and the last day.
    pub fn counts(&self) -> Counts {
        self.counts
    }

    /// The ring in a list, with the rules that it speaks of: the refused one has the next number.
    fn ring(&self, list: &[u32], length: u32, refused: Rule) -> Ring {
        let next = self.next_number();
        Ring::of(&list[..length as usize], |number| if number == next { refused } else { self.held(number) })
    }

    /// The rule at the place of a number.
    fn held(&self, number: u32) -> Rule {
        let i = number as usize;
        Rule::new(self.owned.xs[i].into(), self.owned.ys[i].into(), self.owned.cs[i])
    }
}
