//! Damaged and short tables: from sound states every count and every cell that matters is changed in turn, some free places and cells past the counts too, which must
//! not matter, those of the gap table that are not kept among them, and free places are made to count; every table and list is lent short, empty and longer than
//! needed. After each change all calls are made. The independent engine says by the definition whether what is lent is still sound.

use crate::Options;
use crate::acts::Act;
use crate::compare::{compare_all, Both};
use crate::engine;
use crate::office::{Field, Office, Place, LATEST, NO_LIMIT, STEPS, STEPS_BEFORE, YARD};
use crate::sequences::rule;
use crate::shapes::{self, Shape};
use crate::tests::Tally;
use common::Random;

pub fn all(options: &Options, tally: &mut Tally) {
    let mut random = Random::new(options.seed ^ 0xDA_3A6E);
    for shape in shapes::all() {
        let seed = options.seed;
        match compare_all(seed, &shape.acts) {
            Err((at, why)) => tally.count_sequence(&format!("shape {}", shape.name), seed, &shape.acts[..=at], Some(why)),
            Ok(base) => {
                let changes = changes(base.office(), &shape, &mut random, options.long);
                let (count, began) = (changes.len(), std::time::Instant::now());
                for change in changes {
                    changed(&base, &shape, seed, change, tally);
                }
                println!("calls: {} changes of the shape {}, {} ms", count, shape.name, began.elapsed().as_millis());
            }
        }
    }
}

/// One change and all calls after it, which count as one sequence.
fn changed(base: &Both, shape: &Shape, seed: u64, change: Vec<Act>, tally: &mut Tally) {
    let mut both = base.clone();
    let after: Vec<Act> = change.into_iter().chain(shape.calls.iter().cloned()).collect();
    let mut failure = None;
    for act in &after {
        match both.make(act) {
            Ok(given) => tally.note(act, given),
            Err(why) => {
                failure = Some(why);
                break;
            }
        }
    }
    let name = format!("shape {} with {}", shape.name, after[0]);
    match failure {
        None => tally.count_sequence(&name, seed, &[], None),
        Some(why) => tally.count_sequence(&name, seed, &[&shape.acts[..], &after[..]].concat(), Some(why)),
    }
}

/// All changes of a shape, or some of them where it has many cells.
fn changes(office: &Office, shape: &Shape, random: &mut Random, long: bool) -> Vec<Vec<Act>> {
    let mut all = Vec::new();
    for field in Field::ALL {
        let old = office.field(field);
        let past = match field {
            Field::Steps | Field::Names => STEPS as u32 + 1,
            Field::Rules => 4_097,
            Field::Marks => 65,
            Field::Watched => 1_025,
            Field::Last => LATEST + 1,
            _ => 2,
        };
        for new in [old.wrapping_add(1), old.wrapping_sub(1), 0, 1, past - 1, past, u32::MAX, random.next() as u32] {
            all.push(vec![Act::SetField(field, new)]);
        }
    }
    for (place, at) in cells(office, random, long) {
        let old = office.cell(place, at);
        let mut new = match place {
            Place::Names => vec![old + 1, 0, b'('.into(), b';'.into(), b'0'.into()],
            Place::Lens => vec![old + 1, old - 1, 0, 1, 32, 33, 255],
            Place::Cs | Place::Wcs => vec![old + 1, old - 1, 1_000_000, 1_000_001, -1_000_001, i32::MIN.into()],
            Place::Days => vec![old + 1, old - 1, 0, old + (1 << 31)],
            Place::Levels => {
                let deepest = i64::from(office.counts().marks) + 1;
                vec![old + 1, old - 1, 0, 1, deepest, deepest + 1, 65, 66, 255]
            }
            Place::Gaps => limits(office, at, random),
            _ => vec![old + 1, old - 1, 0, office.counts().steps.into(), u16::MAX.into(), u32::MAX.into()],
        };
        new.push(random.next() as i64);
        new.dedup();
        all.extend(new.into_iter().map(|number| vec![Act::Set(place, at, number)]));
    }
    all.extend(last_days(office, random));
    all.extend(places(office, random));
    all.extend(lengths(office));
    all.extend(several(office, random, long));
    all.extend(shape.changes.iter().cloned());
    all
}

/// Every cell within the counts or of a rule held, and the first three past each, or free; where a table has many, some of them. Of the levels also the last one, and
/// those beyond the bound.
fn cells(office: &Office, random: &mut Random, long: bool) -> Vec<(Place, usize)> {
    use Place::*;
    let (counts, record) = (office.counts(), office.record());
    let many = if long { 5_000 } else { 70 };
    let mut some = |used: usize| -> Vec<usize> {
        if used <= many {
            return (0..used).collect();
        }
        let mut chosen = vec![0, used - 1];
        chosen.extend((0..6).map(|_| random.below(used)));
        chosen
    };
    let names = (record.names as usize).min(Lens.room());
    let mut all = Vec::new();
    let held = office.numbers();
    let free: Vec<usize> = (0..Levels.room()).filter(|at| !office.holds(*at as u32)).collect();
    for place in [Xs, Ys, Cs, Levels] {
        all.extend(some(held.len()).into_iter().map(|at| (place, held[at] as usize)));
        all.extend(free.iter().take(3).map(|at| (place, *at)));
    }
    all.extend((Levels.room() - 1..office.lent(Levels)).map(|at| (Levels, at)));
    for place in [Days, Wxs, Wys, Wcs, Lens, Out, One, Two] {
        let used = match place {
            Days => counts.steps as usize,
            Wxs | Wys | Wcs => counts.watched as usize,
            Lens => names,
            _ => 0,
        };
        let past = used..(used + 3).min(office.lent(place));
        all.extend(some(used).into_iter().chain(past).map(|at| (place, at)));
    }
    all.extend(gap_cells(office).into_iter().map(|at| (Gaps, at)));
    // The bytes of each name, and the first past it.
    for number in some(names) {
        let len = usize::from(office.lens.part()[number]).min(31);
        all.extend((0..=len).map(|at| (Names, 32 * number + at)));
    }
    all
}

/// Every cell of the gap table that is kept; of the others those beside them, and the corners.
fn gap_cells(office: &Office) -> Vec<usize> {
    let side = engine::yard(office).unwrap_or(0);
    let last = YARD - 1;
    let others = [(0, side), (side, 0), (side, side), (0, last), (last, 0), (side.saturating_sub(1), side), (last, last)];
    let mut cells: Vec<usize> = (0..side).flat_map(|x| (0..side).map(move |y| YARD * x + y)).collect();
    cells.extend(others.iter().filter(|(x, y)| *x.max(y) <= last).map(|(x, y)| YARD * x + y));
    cells.sort();
    cells.dedup();
    cells
}

/// What is written into a cell of the gap table: much where few are kept; else one more or less, and one other number. Where the cell is not kept, no number matters.
fn limits(office: &Office, at: usize, random: &mut Random) -> Vec<i64> {
    let (old, side) = (office.cell(Place::Gaps, at), engine::yard(office).unwrap_or(0));
    let all = [0, NO_LIMIT, NO_LIMIT - 1, i64::MIN, -1, old.wrapping_neg(), 16_000_001];
    let near = [old.wrapping_add(1), old.wrapping_sub(1)];
    if side <= 6 && (at / YARD).max(at % YARD) < side {
        near.into_iter().chain(all).collect()
    } else {
        vec![random.pick(&near), random.pick(&all)]
    }
}

/// Rules more or fewer, with the count that they then have: held ones whose places are free, and free places that count as held, with what they have and with a rule
/// that any days keep; and one in the place of the other.
fn places(office: &Office, random: &mut Random) -> Vec<Vec<Act>> {
    let (held, count, open) = (office.numbers(), office.counts().rules, i64::from(office.counts().marks));
    let set = |number: u32, level: i64| Act::Set(Place::Levels, number as usize, level);
    let rules = |count: u32| Act::SetField(Field::Rules, count);
    let mut all = Vec::new();
    let gone: Vec<u32> = (0..6).filter_map(|_| if held.is_empty() { None } else { Some(random.pick(&held)) }).collect();
    all.extend(gone.iter().map(|number| vec![set(*number, 0), rules(count - 1)]));
    all.push(held.iter().map(|number| set(*number, 0)).chain([rules(0)]).collect());
    let last = Place::Levels.room() as u32 - 1;
    let free: Vec<u32> = (0..=last).filter(|number| !office.holds(*number)).collect();
    for number in free.iter().copied().take(3).chain(free.last().copied()) {
        let kept = |level: i64| {
            let columns = [(Place::Xs, 0), (Place::Ys, 0), (Place::Cs, 0), (Place::Levels, level)];
            columns.into_iter().map(|(place, cell)| Act::Set(place, number as usize, cell)).collect::<Vec<Act>>()
        };
        all.push(vec![set(number, 1), rules(count + 1)]);
        for level in [1, open + 1, open + 2, 255] {
            all.push(kept(level).into_iter().chain([rules(count + 1)]).collect());
        }
        all.extend(gone.first().map(|other| kept(1).into_iter().chain([set(*other, 0)]).collect()));
        // Nobody counts them, nor looks at what they have.
        all.push(vec![Act::Set(Place::Xs, number as usize, 65_535), Act::Set(Place::Ys, number as usize, 65_535), Act::Set(Place::Cs, number as usize, i32::MIN.into())]);
    }
    all
}

/// The last day as days of other steps are, and at random; and days one later with the last day that they then have.
fn last_days(office: &Office, random: &mut Random) -> Vec<Vec<Act>> {
    let (steps, last) = (office.counts().steps as usize, office.counts().last);
    let days = &office.shelf.days.part()[..steps];
    let mut others: Vec<u32> = (0..4).map(|_| random.pick(days)).collect();
    others.extend((0..4).map(|_| random.below(last as usize + 10) as u32));
    others.extend((0..4).map(|_| random.next() as u32));
    let mut all: Vec<Vec<Act>> = others.into_iter().map(|day| vec![Act::SetField(Field::Last, day)]).collect();
    let latest = days.iter().position(|day| *day == last).expect("some step has the last day");
    for range in [0..steps, latest..latest + 1] {
        let mut later: Vec<Act> = range.map(|at| Act::Set(Place::Days, at, i64::from(days[at]) + 1)).collect();
        later.push(Act::SetField(Field::Last, last + 1));
        all.push(later);
    }
    all
}

/// Each table and list with other lengths, that of the bound on steps before among them, alone and on damaged tables.
fn lengths(office: &Office) -> Vec<Vec<Act>> {
    let watched = office.counts().watched as usize;
    let mut all = Vec::new();
    for place in Place::ALL {
        let (room, before) = (place.room(), place.room_for(STEPS_BEFORE));
        for len in [room - 1, room, room + 1, before, before + 1, 0, 1, watched, watched.saturating_sub(1), watched + 1] {
            all.push(vec![Act::Lend(place, len)]);
        }
        all.push(vec![Act::Lend(place, room - 1), Act::SetField(Field::Steps, 0)]);
        all.push(vec![Act::Lend(place, room - 1), Act::SetField(Field::Rules, u32::MAX), Act::SetField(Field::Sat, 2)]);
    }
    all
}

/// Changes of several cells: plans that are not the earliest, and cells at random.
fn several(office: &Office, random: &mut Random, long: bool) -> Vec<Vec<Act>> {
    let steps = (office.counts().steps as usize).min(office.lent(Place::Days));
    let later = |from: usize, to: usize, by: i64| (from..to).map(|at| Act::Set(Place::Days, at, office.cell(Place::Days, at) + by)).collect::<Vec<Act>>();
    let mut all = vec![later(0, steps, 1), later(0, steps, 1_000), later(0, steps, 4_000_000_000)];
    all.extend((2..=steps).step_by(1 + steps / 8).map(|to| later(to - 2, to, 1)));
    let cells = cells(office, random, long);
    for _ in 0..if long { 2_000 } else { 40 } {
        let mut change = Vec::new();
        for _ in 0..1 + random.below(3) {
            let (place, at) = random.pick(&cells);
            change.push(Act::Set(place, at, office.cell(place, at).wrapping_add(random.between(-2, 2))));
        }
        all.push(change);
    }
    // A rule over steps, held in place of another: within bounds, so the days alone tell.
    for number in office.numbers().into_iter().take(12).map(|number| number as usize) {
        let other = rule(random.below(steps), random.below(steps), random.between(-3, 3));
        all.push(vec![
            Act::Set(Place::Xs, number, other.first.into()),
            Act::Set(Place::Ys, number, other.second.into()),
            Act::Set(Place::Cs, number, other.amount.into()),
        ]);
    }
    all
}
