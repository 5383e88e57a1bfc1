//! A date engine whose promises are proved, as safe Rust.
//!
//! A [`Planner`] keeps rules over steps, such as "drying at least two days after cutting", and gives every step its earliest day. A rule that cannot be kept is
//! refused with the shortest [`Ring`] of rules that says why; any rule is withdrawn by its number, however many came after it; marks remember what was held, and going
//! back restores it; watched rules are split into those that always hold and those that never do; the last day of the plan is at hand after every call,
//! and in one yard of up to 16 steps the limit between any two of them ([`Planner::gap`]).
//! [`Planner::command`] and [`run_script`] take the same rules as SMT-LIB scripts.
//!
//! ```
//! use planner::{Planner, Refusal, Rule};
//!
//! let (cutting, drying, delivery) = (0, 1, 2);
//! let mut planner = Planner::open(3)?;
//! planner.add(Rule::at_least(2, drying, cutting))?;
//! planner.add(Rule::at_least(3, delivery, drying))?;
//! assert_eq!(planner.days(), [0, 2, 5]);
//! assert_eq!(planner.last_day()?, 5);
//!
//! match planner.add(Rule::at_most(4, delivery, cutting)) {
//!     Err(Refusal::Conflict(ring)) => assert_eq!((ring.numbers(), ring.sum()), (&[2, 0, 1][..], -1)),
//!     other => panic!("five days are needed, and it said {:?}", other),
//! }
//! # Ok::<(), Refusal>(())
//! ```
//!
//! The work is done by the library's archive, for x86-64, which `build.rs` finds. The module [`calls`] has its exports as functions over slices and is the only
//! one with `unsafe`.
#![deny(unsafe_code, missing_docs)]

pub mod bounds;
#[allow(unsafe_code)]
pub mod calls;
mod planner;
mod refusal;
mod ring;
mod rule;
mod script;
mod tables;
#[cfg(test)]
mod tests;

/// The version of the library, as `include/dates.h` has it. `CHANGES.md` says what a caller changes from one to the next.
pub const VERSION: &str = env!("DATES_VERSION");

pub use crate::calls::{Counts, Record};
pub use crate::planner::{Consequences, Moved, Planner, Trial};
pub use crate::refusal::Refusal;
pub use crate::ring::Ring;
pub use crate::rule::Rule;
pub use crate::script::{next_command, run_script, Answer};
