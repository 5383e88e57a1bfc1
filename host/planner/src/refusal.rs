//! Why a call was not carried out.

use crate::ring::Ring;
use std::error::Error;
use std::fmt;

/// Why a call was not carried out. It has changed nothing then.
///
/// ```
/// use planner::{Planner, Refusal};
///
/// let refusal = Planner::open(1_025).unwrap_err();
/// assert_eq!(refusal, Refusal::Step);
/// assert_eq!((refusal.number(), refusal.name()), (3, "STEP"));
/// assert_eq!(refusal.to_string(), "STEP (3): a step count outside 1 to 1,024, or a step number not below the count");
/// ```
#[derive(Clone, Debug, PartialEq, Eq)]
pub enum Refusal {
    /// 1: a lent table or list has too few places. A [`Planner`](crate::Planner) lends enough of them.
    Short,
    /// 2: the tables are not sound. Those of a [`Planner`](crate::Planner) are; see [`Planner::command`](crate::Planner::command) for the record of a script.
    Damaged,
    /// 3: a step count outside 1 to 1,024, or a step number not below the count.
    Step,
    /// 4: an amount outside -1,000,000 to 1,000,000.
    Amount,
    /// 5: no place for one more rule, mark, watched rule or declared name.
    Full,
    /// 6: with the new rule no arrangement exists; the ring, the shortest there is, says why.
    Conflict(Ring),
    /// 7: Back with no mark open.
    NoMark,
    /// 8: script text outside its form.
    Syntax,
    /// 9: a command at a place where it may not stand.
    Mode,
    /// 10: a name unknown, or declared while it stands.
    Name,
    /// 11: a script over 65,536 bytes, a name over 32, terms more than 16 deep, or more than 256 names in one `get-value`.
    Size,
    /// 12: Withdraw of a number under which no rule is held.
    Absent,
    /// 15: Gap where there are more than 16 steps, which is more than one yard has.
    Yard,
}

impl Refusal {
    /// The number that the library gives for it, from 1 to 12, or 15.
    pub fn number(&self) -> u32 {
        self.told().0
    }

    /// Its name, in capitals.
    pub fn name(&self) -> &'static str {
        self.told().1
    }

    /// The ring, where this is a conflict: the shortest there is.
    pub fn ring(&self) -> Option<&Ring> {
        match self {
            Refusal::Conflict(ring) => Some(ring),
            _ => None,
        }
    }

    /// Number, name, and when it is given.
    fn told(&self) -> (u32, &'static str, &'static str) {
        match self {
            Refusal::Short => (1, "SHORT", "a lent table or list has too few places"),
            Refusal::Damaged => (2, "DAMAGED", "the tables are not sound"),
            Refusal::Step => (3, "STEP", "a step count outside 1 to 1,024, or a step number not below the count"),
            Refusal::Amount => (4, "AMOUNT", "an amount outside -1,000,000 to 1,000,000"),
            Refusal::Full => (5, "FULL", "no place for one more rule, mark, watched rule or declared name"),
            Refusal::Conflict(_) => (6, "CONFLICT", "with the new rule no arrangement exists"),
            Refusal::NoMark => (7, "NOMARK", "no mark is open"),
            Refusal::Syntax => (8, "SYNTAX", "script text outside its form"),
            Refusal::Mode => (9, "MODE", "a command at a place where it may not stand"),
            Refusal::Name => (10, "NAME", "a name unknown, or declared while it stands"),
            Refusal::Size => (11, "SIZE", "a script, a name, a term's depth or a get-value over its size"),
            Refusal::Absent => (12, "ABSENT", "no rule is held under the number"),
            Refusal::Yard => (15, "YARD", "there are more than 16 steps"),
        }
    }

    /// What the library's number says: nothing for 0. The ring is asked for on a conflict alone.
    pub(crate) fn judge(number: u32, ring: impl FnOnce() -> Ring) -> Result<(), Refusal> {
        Err(match number {
            0 => return Ok(()),
            1 => Refusal::Short,
            2 => Refusal::Damaged,
            3 => Refusal::Step,
            4 => Refusal::Amount,
            5 => Refusal::Full,
            6 => Refusal::Conflict(ring()),
            7 => Refusal::NoMark,
            8 => Refusal::Syntax,
            9 => Refusal::Mode,
            10 => Refusal::Name,
            11 => Refusal::Size,
            12 => Refusal::Absent,
            15 => Refusal::Yard,
            other => panic!("the library gave {}, which is no number of its", other),
        })
    }

    /// The same for a call that has no conflict.
    pub(crate) fn judge_plain(number: u32) -> Result<(), Refusal> {
        Refusal::judge(number, || panic!("the library gave CONFLICT at a call that has none"))
    }
}

impl fmt::Display for Refusal {
    fn fmt(&self, f: &mut fmt::Formatter<'_>) -> fmt::Result {
        let (number, name, when) = self.told();
        write!(f, "{} ({}): {}", name, number, when)
    }
}

impl Error for Refusal {}
