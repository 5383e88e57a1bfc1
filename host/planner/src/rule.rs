//! Making rules.

pub use crate::calls::Rule;

impl Rule {
    /// The rule day(first) - day(second) <= amount.
    pub fn new(first: u32, second: u32, amount: i32) -> Rule {
        Rule { first, second, amount }
    }

    /// `later` comes at least so many days after `earlier`.
    ///
    /// ```
    /// use planner::Rule;
    ///
    /// let (cutting, drying) = (0, 1);
    /// assert_eq!(Rule::at_least(2, drying, cutting), Rule::new(0, 1, -2));
    /// ```
    ///
    /// The library takes 1,000,000 days at most, either way; more is [`Refusal::Amount`](crate::Refusal::Amount) when the rule is used.
    pub fn at_least(days: i32, later: u32, earlier: u32) -> Rule {
        // The one number without a negative is far outside the bound, and so is what stands in for it.
        Rule { first: earlier, second: later, amount: days.checked_neg().unwrap_or(i32::MAX) }
    }

    /// `later` comes at most so many days after `earlier`.
    ///
    /// ```
    /// use planner::Rule;
    ///
    /// let (tender, delivery) = (0, 4);
    /// assert_eq!(Rule::at_most(14, delivery, tender), Rule::new(4, 0, 14));
    /// ```
    pub fn at_most(days: i32, later: u32, earlier: u32) -> Rule {
        Rule { first: later, second: earlier, amount: days }
    }

    /// The rule that holds exactly where this one does not.
    ///
    /// ```
    /// use planner::Rule;
    ///
    /// assert_eq!(Rule::new(0, 1, -2).negation(), Rule::new(1, 0, 1));
    /// assert_eq!(Rule::new(1, 0, 1).negation(), Rule::new(0, 1, -2));
    /// ```
    pub fn negation(self) -> Rule {
        Rule { first: self.second, second: self.first, amount: -1 - self.amount }
    }
}
