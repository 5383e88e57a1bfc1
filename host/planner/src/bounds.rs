//! The bounds of the library.

/// There are 1 to so many steps, numbered from 0.
pub const STEPS: usize = 1024;

/// At most so many rules are held. The number of a rule is its place, from 0; a new rule takes the lowest free place.
pub const RULES: usize = 4096;

/// The largest amount; the smallest is `-LARGEST`.
pub const LARGEST: i32 = 1_000_000;

/// At most so many marks are open.
pub const MARKS: usize = 64;

/// At most so many rules are watched, numbered from 0.
pub const WATCHED: usize = 1024;

/// No day of an earliest plan is later.
pub const LATEST: u32 = 1_023_000_000;

/// A script has at most so many bytes, where it is run as a whole.
pub const TEXT: usize = 65_536;

/// A name has at most so many bytes.
pub const NAME_BYTES: usize = 32;

/// Terms are at most so deep, the asserted term itself being depth 1.
pub const DEPTH: usize = 16;

/// One yard has at most so many steps: with no more the gap table is kept, which has so many rows and columns.
pub const YARD_STEPS: usize = 16;

/// What a cell of the gap table has where there is no limit: the largest `i64`.
pub const NO_LIMIT: i64 = 9_223_372_036_854_775_807;

/// One `get-value` has at most so many names.
pub const ASKED: usize = 256;

/// A script command is lent at least so many bytes for its answer.
pub const ROOM: usize = 16_384;
