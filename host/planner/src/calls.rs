//! The exported calls, each as a safe function over slices. This is the one module with `unsafe`: a slice is handed over as its pointer and its length,
//! a record by reference, and nothing is kept after the call. The declarations below say what `include/dates.h` says; nothing checks them against the
//! library but the tests.

use crate::bounds::YARD_STEPS;

/// The gap table: row x, column y has the least c such that day(x) - day(y) <= c in every arrangement of the rules held, or
/// [`NO_LIMIT`](crate::bounds::NO_LIMIT) where there is none. It is kept with at most 16 steps, in the cells whose row and column are below the step count; no other is
/// read or written.
pub type Gaps = [[i64; YARD_STEPS]; YARD_STEPS];

/// How many of each thing the tables hold, and the last day of the plan.
#[repr(C)]
#[derive(Clone, Copy, Debug, Default, PartialEq, Eq)]
pub struct Counts {
    /// Steps, numbered from 0.
    pub steps: u32,
    /// Rules held; the number of the next one is the lowest free place, which the levels tell.
    pub rules: u32,
    /// Marks open.
    pub marks: u32,
    /// Watched rules.
    pub watched: u32,
    /// The last day: the largest day of all steps. Any other value makes the tables DAMAGED.
    pub last: u32,
}

/// The script's record. `logic` and `sat` are 0 or 1.
#[repr(C)]
#[derive(Clone, Copy, Debug, Default, PartialEq, Eq)]
pub struct Record {
    /// How many names are declared.
    pub names: u32,
    /// Whether the logic is set.
    pub logic: u32,
    /// The contradictory level, counted from 1; 0 where there is none.
    pub broken: u32,
    /// Whether the last `check-sat` printed `sat` and still counts.
    pub sat: u32,
}

/// A rule: day(first) - day(second) <= amount. Its steps have 32 bits, more than the tables' columns, so that no number need be cut short to make one: a
/// step that is not below the step count is refused with STEP, however large.
#[derive(Clone, Copy, Debug, PartialEq, Eq, Hash)]
pub struct Rule {
    /// The first step.
    pub first: u32,
    /// The second step.
    pub second: u32,
    /// The amount.
    pub amount: i32,
}

/// The lent tables: the columns of the rules held, the days, the levels of the rules, and the columns of the watched rules, which may have any length; and the gap table.
pub struct Tables<'a> {
    /// First steps of the rules held.
    pub xs: &'a mut [u16],
    /// Second steps of the rules held.
    pub ys: &'a mut [u16],
    /// Amounts of the rules held.
    pub cs: &'a mut [i32],
    /// The day of each step.
    pub days: &'a mut [u32],
    /// For each place 0 where it is free, `k + 1` for a rule that was added while `k` marks were open.
    pub levels: &'a mut [u8],
    /// First steps of the watched rules.
    pub wxs: &'a mut [u16],
    /// Second steps of the watched rules.
    pub wys: &'a mut [u16],
    /// Amounts of the watched rules.
    pub wcs: &'a mut [i32],
    /// The gap table. Calls for scripts are not lent it.
    pub gaps: &'a mut Gaps,
}

/// The same tables, lent to a call that writes none of them.
pub struct View<'a> {
    /// First steps of the rules held.
    pub xs: &'a [u16],
    /// Second steps of the rules held.
    pub ys: &'a [u16],
    /// Amounts of the rules held.
    pub cs: &'a [i32],
    /// The day of each step.
    pub days: &'a [u32],
    /// For each place 0 where it is free, `k + 1` for a rule that was added while `k` marks were open.
    pub levels: &'a [u8],
    /// First steps of the watched rules.
    pub wxs: &'a [u16],
    /// Second steps of the watched rules.
    pub wys: &'a [u16],
    /// Amounts of the watched rules.
    pub wcs: &'a [i32],
    /// The gap table.
    pub gaps: &'a Gaps,
}

/// The lent names of a script: 32 bytes for each, and the length of each.
pub struct Names<'a> {
    /// 32 bytes for each name.
    pub bytes: &'a mut [u8],
    /// How many of them the name has.
    pub lens: &'a mut [u8],
}

// The tables of every call, as C has them; `$c` is `const` or `mut` for each in turn. Those that are lent the gap table have it next.
macro_rules! declare {
    ($( fn $name:ident($($before:ident: $before_type:ty,)* [$x:ident $y:ident $c:ident $d:ident $l:ident $wx:ident $wy:ident $wc:ident] $($after:ident: $after_type:ty,)*); )*) => {
        extern "C" {
            $( fn $name(
                $($before: $before_type,)*
                xs: *$x u16, xs_len: usize, ys: *$y u16, ys_len: usize, cs: *$c i32, cs_len: usize,
                days: *$d u32, days_len: usize, levels: *$l u8, levels_len: usize,
                wxs: *$wx u16, wxs_len: usize, wys: *$wy u16, wys_len: usize, wcs: *$wc i32, wcs_len: usize,
                $($after: $after_type,)*
            ) -> u32; )*
        }
    };
}

declare! {
    fn dates_open(counts: *mut Counts, [const const const mut mut const const const] gaps: *mut Gaps, steps: u32,);
    fn dates_watch(counts: *mut Counts, [const const const const const mut mut mut] gaps: *const Gaps, x: u32, y: u32, c: i32,);
    fn dates_mark(counts: *mut Counts, [const const const const const const const const] gaps: *const Gaps,);
    fn dates_back(counts: *mut Counts, [const const const mut mut const const const] gaps: *mut Gaps,);
    fn dates_withdraw(counts: *mut Counts, [const const const mut mut const const const] gaps: *mut Gaps, number: u32,);
    fn dates_add(counts: *mut Counts, [mut mut mut mut mut const const const]
        gaps: *mut Gaps, list: *mut u32, list_len: usize, x: u32, y: u32, c: i32, value: *mut u32,);
    fn dates_trial(counts: *const Counts, [const const const const const const const const]
        gaps: *const Gaps, one: *mut u32, one_len: usize, two: *mut u32, two_len: usize, x: u32, y: u32, c: i32, value: *mut u32,);
    fn dates_consequences(counts: *const Counts, [const const const const const const const const]
        gaps: *const Gaps, one: *mut u32, one_len: usize, two: *mut u32, two_len: usize, held: *mut u32, excluded: *mut u32,);
    fn dates_ring_check(counts: *const Counts, [const const const const const const const const]
        gaps: *const Gaps, list: *const u32, list_len: usize, x: u32, y: u32, c: i32, verdict: *mut u32,);
    fn dates_last_day(counts: *const Counts, [const const const const const const const const] gaps: *const Gaps, day: *mut u32,);
    fn dates_gap(counts: *const Counts, [const const const const const const const const] gaps: *const Gaps, x: u32, y: u32, limited: *mut u32, limit: *mut i64,);
    fn dates_start(counts: *mut Counts, record: *mut Record, [const const const mut mut const const const]
        names: *const u8, names_len: usize, lens: *const u8, lens_len: usize,);
    fn dates_command(text: *const u8, text_len: usize, counts: *mut Counts, record: *mut Record, [mut mut mut mut mut const const const]
        names: *mut u8, names_len: usize, lens: *mut u8, lens_len: usize, out: *mut u8, out_len: usize, read: *mut usize, written: *mut usize,);
}

extern "C" {
    fn dates_run_script(script: *const u8, script_len: usize, out: *mut u8, out_len: usize, written: *mut usize) -> u32;
}

// Calls an export with the tables in their place.
macro_rules! lend {
    ($name:ident($($before:expr),*; $t:expr; $($after:expr),*)) => {
        // SAFETY: each pointer comes from a reference or a slice that lives through the call, with its own length; what the call may write is borrowed
        // mutably here, and no two of them overlap.
        unsafe {
            $name(
                $($before,)*
                $t.xs.as_mut_ptr(), $t.xs.len(), $t.ys.as_mut_ptr(), $t.ys.len(), $t.cs.as_mut_ptr(), $t.cs.len(),
                $t.days.as_mut_ptr(), $t.days.len(), $t.levels.as_mut_ptr(), $t.levels.len(),
                $t.wxs.as_mut_ptr(), $t.wxs.len(), $t.wys.as_mut_ptr(), $t.wys.len(), $t.wcs.as_mut_ptr(), $t.wcs.len(),
                $($after,)*
            )
        }
    };
}

// The same for a call that writes no table.
macro_rules! show {
    ($name:ident($($before:expr),*; $t:expr; $($after:expr),*)) => {
        // SAFETY: as above; the call's declaration has every table as const.
        unsafe {
            $name(
                $($before,)*
                $t.xs.as_ptr(), $t.xs.len(), $t.ys.as_ptr(), $t.ys.len(), $t.cs.as_ptr(), $t.cs.len(),
                $t.days.as_ptr(), $t.days.len(), $t.levels.as_ptr(), $t.levels.len(),
                $t.wxs.as_ptr(), $t.wxs.len(), $t.wys.as_ptr(), $t.wys.len(), $t.wcs.as_ptr(), $t.wcs.len(),
                $($after,)*
            )
        }
    };
}

/// Open: that many steps, on day 0, and no rules, marks or watched rules; the last day is 0.
pub fn open(counts: &mut Counts, t: &mut Tables, steps: u32) -> u32 {
    lend!(dates_open(counts; t; t.gaps, steps))
}

/// Watch: the rule stands at the end of the watched list.
pub fn watch(counts: &mut Counts, t: &mut Tables, r: Rule) -> u32 {
    lend!(dates_watch(counts; t; t.gaps, r.first, r.second, r.amount))
}

/// Mark: one more mark is open; no table is written.
pub fn mark(counts: &mut Counts, t: &mut Tables) -> u32 {
    lend!(dates_mark(counts; t; t.gaps))
}

/// Back: the newest mark and the rules after it are dropped.
pub fn back(counts: &mut Counts, t: &mut Tables) -> u32 {
    lend!(dates_back(counts; t; t.gaps))
}

/// Withdraw: the rule held under the number is dropped, whenever it was added; the others keep their numbers.
pub fn withdraw(counts: &mut Counts, t: &mut Tables, number: u32) -> u32 {
    lend!(dates_withdraw(counts; t; t.gaps, number))
}

/// Add: the rule is held at the lowest free place, and `value` is how many steps moved; on CONFLICT the ring, the shortest there is, is in the list, and `value` is its length.
pub fn add(counts: &mut Counts, t: &mut Tables, list: &mut [u32], r: Rule, value: &mut u32) -> u32 {
    lend!(dates_add(counts; t; t.gaps, list.as_mut_ptr(), list.len(), r.first, r.second, r.amount, value))
}

// The next five write no table. They are here also over tables lent for writing, for tests that look whether it is so.

/// Trial: answers as Add would and writes to no table; `days` gets the days, or `ring` the ring that Add would give.
pub fn trial(counts: &Counts, t: &mut Tables, days: &mut [u32], ring: &mut [u32], r: Rule, value: &mut u32) -> u32 {
    lend!(dates_trial(counts; t; t.gaps, days.as_mut_ptr(), days.len(), ring.as_mut_ptr(), ring.len(), r.first, r.second, r.amount, value))
}

/// Consequences: the watched rules that hold in every arrangement, and those that hold in none.
pub fn consequences(counts: &Counts, t: &mut Tables, all: &mut [u32], none: &mut [u32], held: &mut u32, excluded: &mut u32) -> u32 {
    lend!(dates_consequences(counts; t; t.gaps, all.as_mut_ptr(), all.len(), none.as_mut_ptr(), none.len(), held, excluded))
}

/// Ring check: `verdict` is 1 where the list is a negative ring that starts with the rule under its would-be number and goes on over held rules.
pub fn ring_check(counts: &Counts, t: &mut Tables, list: &[u32], r: Rule, verdict: &mut u32) -> u32 {
    lend!(dates_ring_check(counts; t; t.gaps, list.as_ptr(), list.len(), r.first, r.second, r.amount, verdict))
}

/// Last day: `day` is the largest day of the plan, over all steps.
pub fn last_day(counts: &Counts, t: &mut Tables, day: &mut u32) -> u32 {
    lend!(dates_last_day(counts; t; t.gaps, day))
}

/// Gap: `limited` is 1 and `limit` the least c such that day(x) - day(y) <= c in every arrangement, or both are 0 where there is none.
pub fn gap(counts: &Counts, t: &mut Tables, x: u32, y: u32, limited: &mut u32, limit: &mut i64) -> u32 {
    lend!(dates_gap(counts; t; t.gaps, x, y, limited, limit))
}

/// Trial over tables that are lent for reading.
pub fn trial_over(counts: &Counts, t: &View, days: &mut [u32], ring: &mut [u32], r: Rule, value: &mut u32) -> u32 {
    show!(dates_trial(counts; t; t.gaps, days.as_mut_ptr(), days.len(), ring.as_mut_ptr(), ring.len(), r.first, r.second, r.amount, value))
}

/// Consequences over tables that are lent for reading.
pub fn consequences_over(counts: &Counts, t: &View, all: &mut [u32], none: &mut [u32], held: &mut u32, excluded: &mut u32) -> u32 {
    show!(dates_consequences(counts; t; t.gaps, all.as_mut_ptr(), all.len(), none.as_mut_ptr(), none.len(), held, excluded))
}

/// Ring check over tables that are lent for reading.
pub fn ring_check_over(counts: &Counts, t: &View, list: &[u32], r: Rule, verdict: &mut u32) -> u32 {
    show!(dates_ring_check(counts; t; t.gaps, list.as_ptr(), list.len(), r.first, r.second, r.amount, verdict))
}

/// Last day over tables that are lent for reading.
pub fn last_day_over(counts: &Counts, t: &View, day: &mut u32) -> u32 {
    show!(dates_last_day(counts; t; t.gaps, day))
}

/// Gap over tables that are lent for reading.
pub fn gap_over(counts: &Counts, t: &View, x: u32, y: u32, limited: &mut u32, limit: &mut i64) -> u32 {
    show!(dates_gap(counts; t; t.gaps, x, y, limited, limit))
}

/// Start: as many steps as there may be, and an empty record.
pub fn start(counts: &mut Counts, record: &mut Record, t: &mut Tables, names: &Names) -> u32 {
    lend!(dates_start(counts, record; t; names.bytes.as_ptr(), names.bytes.len(), names.lens.as_ptr(), names.lens.len()))
}

/// Command: carries out the command that the text begins with; `read` and `written` are the bytes read of the text and written into `out`.
#[allow(clippy::too_many_arguments)]
pub fn command(text: &[u8], counts: &mut Counts, record: &mut Record, t: &mut Tables, names: &mut Names, out: &mut [u8], read: &mut usize, written: &mut usize) -> u32 {
    lend!(dates_command(text.as_ptr(), text.len(), counts, record; t;
        names.bytes.as_mut_ptr(), names.bytes.len(), names.lens.as_mut_ptr(), names.lens.len(), out.as_mut_ptr(), out.len(), read, written))
}

/// Runs a whole script and writes its answers into `out`; `written` is how many bytes they are.
pub fn run_script(script: &[u8], out: &mut [u8], written: &mut usize) -> u32 {
    // SAFETY: as above.
    unsafe { dates_run_script(script.as_ptr(), script.len(), out.as_mut_ptr(), out.len(), written) }
}

#[cfg(test)]
mod tests {
    use super::{Counts, Gaps, Record};
    use std::mem::{align_of, size_of};

    /// How far a field lies from the start of its record.
    fn offset<T>(record: &T, field: &u32) -> usize {
        field as *const u32 as usize - record as *const T as usize
    }

    #[test]
    fn counts_lie_as_in_c() {
        let k = Counts::default();
        assert_eq!((size_of::<Counts>(), align_of::<Counts>()), (20, 4));
        assert_eq!([&k.steps, &k.rules, &k.marks, &k.watched, &k.last].map(|field| offset(&k, field)), [0, 4, 8, 12, 16]);
    }

    #[test]
    fn the_gap_table_lies_as_in_c() {
        assert_eq!((size_of::<Gaps>(), align_of::<Gaps>()), (2_048, 8));
        let gaps: Gaps = [[0; 16]; 16];
        assert_eq!(&gaps[3][5] as *const i64 as usize - &gaps as *const Gaps as usize, 8 * (16 * 3 + 5));
    }

    #[test]
    fn the_record_lies_as_in_c() {
        let r = Record::default();
        assert_eq!((size_of::<Record>(), align_of::<Record>()), (16, 4));
        assert_eq!([&r.names, &r.logic, &r.broken, &r.sat].map(|field| offset(&r, field)), [0, 4, 8, 12]);
    }
}
