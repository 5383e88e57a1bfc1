//! All that is lent to the calls: counts, tables, record, names, lists and bytes, with free places, the cells past the counts and some places beside each of them,
//! filled with numbers of no meaning. It is cloned before a call and compared whole after it.

use common::Random;
use planner::calls::{Counts, Gaps, Names, Record, Rule, Tables};

/// How many steps and watched rules there may be.
pub const STEPS: usize = reader::NAMES;
pub const WATCHED: usize = 1_024;

/// No day of an earliest plan is later.
pub const LATEST: u32 = (STEPS as u32 - 1) * reader::LARGEST as u32;

/// How many steps there could be before. Tables and lists of that bound are SHORT.
pub const STEPS_BEFORE: usize = 256;

/// How many steps one yard has at most, and what a cell of the gap table has where there is no limit.
pub const YARD: usize = 16;
pub const NO_LIMIT: i64 = i64::MAX;

/// Places on either side of what is lent.
const BESIDE: usize = 8;

/// A lent slice in the middle of a larger list.
#[derive(Clone, PartialEq, Eq)]
pub struct Lent<T> {
    all: Vec<T>,
    len: usize,
}

impl<T: Copy + PartialEq + std::fmt::Display> Lent<T> {
    fn new(len: usize, mut fill: impl FnMut() -> T) -> Lent<T> {
        Lent { all: (0..len + 2 * BESIDE).map(|_| fill()).collect(), len }
    }

    pub fn part(&self) -> &[T] {
        &self.all[BESIDE..BESIDE + self.len]
    }

    pub fn part_mut(&mut self) -> &mut [T] {
        &mut self.all[BESIDE..BESIDE + self.len]
    }

    /// Lends so many places from now on, as far as the larger list goes. What is lent no more stands beside it.
    fn lend(&mut self, len: usize) {
        self.len = len.min(self.all.len() - 2 * BESIDE);
    }

    /// Where two of them differ first.
    fn difference(&self, got: &Lent<T>) -> Option<String> {
        if self.all == got.all {
            return None;
        }
        let at = (0..self.all.len()).find(|at| self.all[*at] != got.all[*at])?;
        Some(format!("[{}] (of {} lent): wanted {}, got {}", at as i64 - BESIDE as i64, self.len, self.all[at], got.all[at]))
    }
}

/// The gap table, between two rows more.
#[derive(Clone, PartialEq, Eq)]
pub struct GapTable(Vec<[i64; YARD]>);

impl GapTable {
    fn new(mut fill: impl FnMut() -> i64) -> GapTable {
        GapTable((0..YARD + 2).map(|_| [(); YARD].map(|_| fill())).collect())
    }

    pub fn part(&self) -> &Gaps {
        (&self.0[1..=YARD]).try_into().expect("as many rows as are lent")
    }

    pub fn part_mut(&mut self) -> &mut Gaps {
        (&mut self.0[1..=YARD]).try_into().expect("as many rows as are lent")
    }

    /// Where two of them differ first.
    fn difference(&self, got: &GapTable) -> Option<String> {
        let differs = |(row, column): &(usize, usize)| self.0[*row][*column] != got.0[*row][*column];
        let (row, column) = (0..YARD + 2).flat_map(|row| (0..YARD).map(move |column| (row, column))).find(differs)?;
        Some(format!("[{}][{}]: wanted {}, got {}", row as i64 - 1, column, self.0[row][column], got.0[row][column]))
    }
}

/// A table, list or text that is lent.
#[derive(Clone, Copy, PartialEq, Eq, Debug)]
pub enum Place {
    Xs,
    Ys,
    Cs,
    Days,
    Levels,
    Wxs,
    Wys,
    Wcs,
    /// Row by row; it is lent without a length.
    Gaps,
    Names,
    Lens,
    Out,
    One,
    Two,
}

impl Place {
    /// All that have a length.
    pub const ALL: [Place; 13] = {
        use Place::*;
        [Xs, Ys, Cs, Days, Levels, Wxs, Wys, Wcs, Names, Lens, Out, One, Two]
    };

    /// How many places it must have; for the two lists those of a ring.
    pub fn room(self) -> usize {
        self.room_for(STEPS)
    }

    /// How many places it must have where so many steps may be.
    pub fn room_for(self, steps: usize) -> usize {
        use Place::*;
        match self {
            Xs | Ys | Cs | Levels => reader::RULES,
            Days | Lens | One | Two => steps,
            Wxs | Wys | Wcs => WATCHED,
            Gaps => YARD * YARD,
            Names => reader::NAME_BYTES * steps,
            Out => reader::LENT,
        }
    }
}

/// A number of the counts or of the record.
#[derive(Clone, Copy, PartialEq, Eq, Debug)]
pub enum Field {
    Steps,
    Rules,
    Marks,
    Watched,
    Last,
    Names,
    Logic,
    Broken,
    Sat,
}

impl Field {
    pub const ALL: [Field; 9] = {
        use Field::*;
        [Steps, Rules, Marks, Watched, Last, Names, Logic, Broken, Sat]
    };

    /// Those of the counts.
    pub const COUNTS: [Field; 5] = {
        use Field::*;
        [Steps, Rules, Marks, Watched, Last]
    };
}

/// The office tables.
#[derive(Clone, PartialEq, Eq)]
pub struct Shelf {
    pub xs: Lent<u16>,
    pub ys: Lent<u16>,
    pub cs: Lent<i32>,
    pub days: Lent<u32>,
    pub levels: Lent<u8>,
    pub wxs: Lent<u16>,
    pub wys: Lent<u16>,
    pub wcs: Lent<i32>,
    pub gaps: GapTable,
}

impl Shelf {
    pub fn tables(&mut self) -> Tables<'_> {
        Tables {
            xs: self.xs.part_mut(),
            ys: self.ys.part_mut(),
            cs: self.cs.part_mut(),
            days: self.days.part_mut(),
            levels: self.levels.part_mut(),
            wxs: self.wxs.part_mut(),
            wys: self.wys.part_mut(),
            wcs: self.wcs.part_mut(),
            gaps: self.gaps.part_mut(),
        }
    }
}

/// The counts and the record that are lent are the middle ones of three.
#[derive(Clone, PartialEq, Eq)]
pub struct Office {
    pub counts: [Counts; 3],
    pub record: [Record; 3],
    pub shelf: Shelf,
    pub names: Lent<u8>,
    pub lens: Lent<u8>,
    pub out: Lent<u8>,
    pub one: Lent<u32>,
    pub two: Lent<u32>,
}

impl Office {
    /// An office of a seed: everything has room, some of it one or two places more, the levels always one at least, and nothing has a meaning yet.
    pub fn new(seed: u64) -> Office {
        let mut random = Random::new(seed ^ 0x0FF1_CE);
        let mut room = |place: Place, more: usize| place.room() + more + (random.next() % 3) as usize;
        let sizes: Vec<usize> = Place::ALL.iter().map(|place| room(*place, usize::from(*place == Place::Levels))).collect();
        let list = room(Place::Wxs, 0);
        let random = &mut random;
        // Small numbers, which would be steps, rule numbers or days, among large ones.
        let mut any = move || {
            let number = random.next();
            if number % 4 == 0 {
                number >> 32
            } else {
                (number >> 32) % 7
            }
        };
        let counts = [(); 3].map(|_| Counts { steps: any() as u32, rules: any() as u32, marks: any() as u32, watched: any() as u32, last: any() as u32 });
        let record = [(); 3].map(|_| Record { names: any() as u32, logic: any() as u32, broken: any() as u32, sat: any() as u32 });
        let shelf = Shelf {
            xs: Lent::new(sizes[0], || any() as u16),
            ys: Lent::new(sizes[1], || any() as u16),
            cs: Lent::new(sizes[2], || any() as i32 - 3),
            days: Lent::new(sizes[3], || any() as u32),
            levels: Lent::new(sizes[4], || any() as u8),
            wxs: Lent::new(sizes[5], || any() as u16),
            wys: Lent::new(sizes[6], || any() as u16),
            wcs: Lent::new(sizes[7], || any() as i32 - 3),
            gaps: GapTable::new(|| [any() as i64 - 3, NO_LIMIT, i64::MIN, 0][any() as usize % 4]),
        };
        let names = Lent::new(sizes[8], || 33 + (any() % 200) as u8);
        let lens = Lent::new(sizes[9], || any() as u8);
        let out = Lent::new(sizes[10], || any() as u8);
        let one = Lent::new(list, || any() as u32);
        let two = Lent::new(list, || any() as u32);
        Office { counts, record, shelf, names, lens, out, one, two }
    }

    pub fn counts(&self) -> Counts {
        self.counts[1]
    }

    pub fn record(&self) -> Record {
        self.record[1]
    }

    /// Whether a rule is held under the number. The levels have room.
    pub fn holds(&self, number: u32) -> bool {
        self.levels().get(number as usize).map_or(false, |level| *level != 0)
    }

    /// The numbers of the rules held, rising, as far as the levels are lent.
    pub fn numbers(&self) -> Vec<u32> {
        (0..self.levels().len() as u32).filter(|number| self.holds(*number)).collect()
    }

    /// The lowest number under which no rule is held; where there is none, as many as there are places.
    pub fn next_number(&self) -> u32 {
        self.levels().iter().take_while(|level| **level != 0).count() as u32
    }

    /// The levels, without the room beyond.
    fn levels(&self) -> &[u8] {
        let levels = self.shelf.levels.part();
        &levels[..levels.len().min(reader::RULES)]
    }

    /// The rule held, or watched, under a number below the table's room.
    pub fn rule(&self, number: usize) -> Rule {
        let shelf = &self.shelf;
        Rule { first: shelf.xs.part()[number].into(), second: shelf.ys.part()[number].into(), amount: shelf.cs.part()[number] }
    }

    pub fn watched_rule(&self, number: usize) -> Rule {
        let shelf = &self.shelf;
        Rule { first: shelf.wxs.part()[number].into(), second: shelf.wys.part()[number].into(), amount: shelf.wcs.part()[number] }
    }

    /// How many places are lent.
    pub fn lent(&self, place: Place) -> usize {
        let shelf = &self.shelf;
        match place {
            Place::Xs => shelf.xs.len,
            Place::Ys => shelf.ys.len,
            Place::Cs => shelf.cs.len,
            Place::Days => shelf.days.len,
            Place::Levels => shelf.levels.len,
            Place::Wxs => shelf.wxs.len,
            Place::Wys => shelf.wys.len,
            Place::Wcs => shelf.wcs.len,
            Place::Gaps => YARD * YARD,
            Place::Names => self.names.len,
            Place::Lens => self.lens.len,
            Place::Out => self.out.len,
            Place::One => self.one.len,
            Place::Two => self.two.len,
        }
    }

    /// Lends another number of places from now on; of the gap table always all.
    pub fn lend(&mut self, place: Place, len: usize) {
        let shelf = &mut self.shelf;
        match place {
            Place::Xs => shelf.xs.lend(len),
            Place::Ys => shelf.ys.lend(len),
            Place::Cs => shelf.cs.lend(len),
            Place::Days => shelf.days.lend(len),
            Place::Levels => shelf.levels.lend(len),
            Place::Wxs => shelf.wxs.lend(len),
            Place::Wys => shelf.wys.lend(len),
            Place::Wcs => shelf.wcs.lend(len),
            Place::Gaps => (),
            Place::Names => self.names.lend(len),
            Place::Lens => self.lens.lend(len),
            Place::Out => self.out.lend(len),
            Place::One => self.one.lend(len),
            Place::Two => self.two.lend(len),
        }
    }

    /// What stands in a cell that is lent.
    pub fn cell(&self, place: Place, at: usize) -> i64 {
        let shelf = &self.shelf;
        match place {
            Place::Xs => shelf.xs.part()[at].into(),
            Place::Ys => shelf.ys.part()[at].into(),
            Place::Cs => shelf.cs.part()[at].into(),
            Place::Days => shelf.days.part()[at].into(),
            Place::Levels => shelf.levels.part()[at].into(),
            Place::Wxs => shelf.wxs.part()[at].into(),
            Place::Wys => shelf.wys.part()[at].into(),
            Place::Wcs => shelf.wcs.part()[at].into(),
            Place::Gaps => shelf.gaps.part()[at / YARD][at % YARD],
            Place::Names => self.names.part()[at].into(),
            Place::Lens => self.lens.part()[at].into(),
            Place::Out => self.out.part()[at].into(),
            Place::One => self.one.part()[at].into(),
            Place::Two => self.two.part()[at].into(),
        }
    }

    /// Writes a number into a cell, cut to the cell's width; nothing where the cell is not lent.
    pub fn set(&mut self, place: Place, at: usize, number: i64) {
        if at >= self.lent(place) {
            return;
        }
        let shelf = &mut self.shelf;
        match place {
            Place::Xs => shelf.xs.part_mut()[at] = number as u16,
            Place::Ys => shelf.ys.part_mut()[at] = number as u16,
            Place::Cs => shelf.cs.part_mut()[at] = number as i32,
            Place::Days => shelf.days.part_mut()[at] = number as u32,
            Place::Levels => shelf.levels.part_mut()[at] = number as u8,
            Place::Wxs => shelf.wxs.part_mut()[at] = number as u16,
            Place::Wys => shelf.wys.part_mut()[at] = number as u16,
            Place::Wcs => shelf.wcs.part_mut()[at] = number as i32,
            Place::Gaps => shelf.gaps.part_mut()[at / YARD][at % YARD] = number,
            Place::Names => self.names.part_mut()[at] = number as u8,
            Place::Lens => self.lens.part_mut()[at] = number as u8,
            Place::Out => self.out.part_mut()[at] = number as u8,
            Place::One => self.one.part_mut()[at] = number as u32,
            Place::Two => self.two.part_mut()[at] = number as u32,
        }
    }

    pub fn field(&self, field: Field) -> u32 {
        let (counts, record) = (self.counts(), self.record());
        match field {
            Field::Steps => counts.steps,
            Field::Rules => counts.rules,
            Field::Marks => counts.marks,
            Field::Watched => counts.watched,
            Field::Last => counts.last,
            Field::Names => record.names,
            Field::Logic => record.logic,
            Field::Broken => record.broken,
            Field::Sat => record.sat,
        }
    }

    pub fn set_field(&mut self, field: Field, number: u32) {
        let (counts, record) = (&mut self.counts[1], &mut self.record[1]);
        match field {
            Field::Steps => counts.steps = number,
            Field::Rules => counts.rules = number,
            Field::Marks => counts.marks = number,
            Field::Watched => counts.watched = number,
            Field::Last => counts.last = number,
            Field::Names => record.names = number,
            Field::Logic => record.logic = number,
            Field::Broken => record.broken = number,
            Field::Sat => record.sat = number,
        }
    }

    /// The names and their lengths as they are lent.
    pub fn lend_names<'o>(names: &'o mut Lent<u8>, lens: &'o mut Lent<u8>) -> Names<'o> {
        Names { bytes: names.part_mut(), lens: lens.part_mut() }
    }

    /// How what was got differs from this, which was wanted. Nothing where they are the same, places beside what is lent included.
    pub fn difference(&self, got: &Office) -> Option<String> {
        for at in [1, 0, 2] {
            let which = if at == 1 { "" } else { " beside it" };
            if self.counts[at] != got.counts[at] {
                return Some(format!("counts{}: wanted {:?}, got {:?}", which, self.counts[at], got.counts[at]));
            }
            if self.record[at] != got.record[at] {
                return Some(format!("record{}: wanted {:?}, got {:?}", which, self.record[at], got.record[at]));
            }
        }
        let (shelf, other) = (&self.shelf, &got.shelf);
        let named = |name: &str, how: Option<String>| how.map(|how| format!("{}{}", name, how));
        named("xs", shelf.xs.difference(&other.xs))
            .or_else(|| named("ys", shelf.ys.difference(&other.ys)))
            .or_else(|| named("cs", shelf.cs.difference(&other.cs)))
            .or_else(|| named("days", shelf.days.difference(&other.days)))
            .or_else(|| named("levels", shelf.levels.difference(&other.levels)))
            .or_else(|| named("wxs", shelf.wxs.difference(&other.wxs)))
            .or_else(|| named("wys", shelf.wys.difference(&other.wys)))
            .or_else(|| named("wcs", shelf.wcs.difference(&other.wcs)))
            .or_else(|| named("gaps", shelf.gaps.difference(&other.gaps)))
            .or_else(|| named("names", self.names.difference(&got.names)))
            .or_else(|| named("lens", self.lens.difference(&got.lens)))
            .or_else(|| named("out", self.out.difference(&got.out)))
            .or_else(|| named("list one", self.one.difference(&got.one)))
            .or_else(|| named("list two", self.two.difference(&got.two)))
    }
}
