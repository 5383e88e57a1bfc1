//! The ring of a conflict.

use crate::Rule;

/// Why a rule cannot be kept: a list of rules where each rule's second step is the next rule's first step, the last one's second step is the first one's first
/// step, no step is a first step twice, and the amounts add up below 0. The refused rule is the first, under the number it would have had; the others are held.
///
/// It is the shortest such list: no other has fewer rules, and of those with as few it is the one whose numbers are smallest at the first difference. So there is one
/// ring for a refused rule, and it can be read aloud.
///
/// ```
/// use planner::{Planner, Refusal, Rule};
///
/// let mut planner = Planner::open(4)?;
/// planner.add(Rule::new(0, 1, -2))?;
/// planner.add(Rule::new(1, 2, -3))?;
/// if let Err(Refusal::Conflict(ring)) = planner.add(Rule::new(2, 0, 4)) {
///     assert_eq!(ring.numbers(), [2, 0, 1]);
///     assert_eq!(ring.rules()[0], Rule::new(2, 0, 4));
///     assert_eq!(ring.sum(), -1);
/// } else {
///     panic!("step 2 is at least 5 days after step 0");
/// }
/// // Where a later rule says as much as these two, two rules are enough.
/// planner.add(Rule::new(0, 2, -5))?;
/// assert_eq!(planner.trial(Rule::new(2, 0, 4)).unwrap_err().ring().unwrap().numbers(), [3, 2]);
/// # Ok::<(), Refusal>(())
/// ```
#[derive(Clone, Debug, PartialEq, Eq)]
pub struct Ring {
    numbers: Vec<u32>,
    rules: Vec<Rule>,
}

impl Ring {
    /// The ring of these numbers, where `rule` says which rule a number stands for.
    pub(crate) fn of(numbers: &[u32], rule: impl Fn(u32) -> Rule) -> Ring {
        Ring { numbers: numbers.to_vec(), rules: numbers.iter().map(|number| rule(*number)).collect() }
    }

    /// The numbers of its rules.
    pub fn numbers(&self) -> &[u32] {
        &self.numbers
    }

    /// Its rules, in the same order.
    pub fn rules(&self) -> &[Rule] {
        &self.rules
    }

    /// The sum of the amounts, which is below 0: so many days are asked for beyond those that there are.
    pub fn sum(&self) -> i64 {
        self.rules.iter().map(|rule| i64::from(rule.amount)).sum()
    }
}
