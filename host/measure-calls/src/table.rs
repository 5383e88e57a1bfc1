//! The table: how many times longer each call takes in the library than written by hand, and than one plain pass over the rules.

use crate::cases::{self, cases, yard_cases, Case};
use crate::measure::{measure, Times};
use crate::shapes::Shape;
use planner::bounds::{RULES, STEPS, WATCHED, YARD_STEPS};

/// Steps and rules; and those of one yard.
pub const SIZES: [(usize, usize); 3] = [(64, 512), (256, RULES), (STEPS, RULES)];
pub const YARDS: [(usize, usize); 2] = [(YARD_STEPS, 32), (YARD_STEPS, RULES)];

/// One case, with its times at each size. Where there are just 64 steps, Consequences over 64 is the same as over all, and is left out.
pub struct Row {
    pub name: &'static str,
    pub shape: Shape,
    pub times: Vec<Option<Times>>,
}

/// Measures every case, printing each as it is done.
pub fn rows() -> Vec<Row> {
    measured(&SIZES, |shape, steps, rules| cases(shape, steps, rules, WATCHED))
}

/// The same for the cases of one yard.
pub fn yard_rows() -> Vec<Row> {
    measured(&YARDS, |shape, _, rules| yard_cases(shape, rules))
}

fn measured(sizes: &[(usize, usize)], cases: impl Fn(Shape, usize, usize) -> Vec<Case>) -> Vec<Row> {
    println!(
        "{:<34}{:<8}{:>6}{:>7}{:>12}{:>12}{:>12}{:>10}{:>10}{:>13}",
        "call", "shape", "steps", "rules", "library us", "by hand us", "plain us", "/by hand", "/plain", "any ring us"
    );
    let mut rows: Vec<Row> = Vec::new();
    for shape in Shape::ALL {
        for (column, (steps, rules)) in sizes.iter().copied().enumerate() {
            for case in cases(shape, steps, rules) {
                let t = measure(&case);
                let (by_hand, plain) = ratios(t);
                let any_ring = t.any_ring.map_or(String::new(), |time| format!("{:>13.2}", time / 1e3));
                println!(
                    "{:<34}{:<8}{:>6}{:>7}{:>12.2}{:>12.2}{:>12.2}{:>10.2}{:>10.1}{}",
                    case.name, shape.name(), steps, rules, t.library / 1e3, t.by_hand / 1e3, t.plain / 1e3, by_hand, plain, any_ring
                );
                let known = rows.iter().position(|row| row.name == case.name && row.shape == shape);
                let at = known.unwrap_or_else(|| {
                    rows.push(Row { name: case.name, shape, times: vec![None; sizes.len()] });
                    rows.len() - 1
                });
                rows[at].times[column] = Some(t);
            }
        }
    }
    rows
}

/// The library's time over the time by hand, and over the time of a plain pass.
pub fn ratios(t: Times) -> (f64, f64) {
    (t.library / t.by_hand, t.library / t.plain)
}

/// The ratios as a Markdown table: in each cell the library's time over the time by hand, and over the time of a plain pass.
pub fn markdown(rows: &[Row], sizes: &[(usize, usize)]) -> String {
    let mut text = String::from("| call |");
    for shape in Shape::ALL {
        for (steps, rules) in sizes {
            text += &format!(" {}, {} steps, {} rules |", shape.name(), steps, rules);
        }
    }
    text += &format!("\n|---{}|\n", "|---".repeat(Shape::ALL.len() * sizes.len()));
    for row in rows.iter().filter(|row| row.shape == Shape::ALL[0]) {
        text += &format!("| {} |", row.name);
        for shape in Shape::ALL {
            let other = rows.iter().find(|other| other.name == row.name && other.shape == shape);
            for times in other.map_or(vec![None; sizes.len()], |other| other.times.clone()) {
                text += &times.map(ratios).map_or(String::from(" |"), |(by_hand, plain)| format!(" {:.2}; {:.1} |", by_hand, plain));
            }
        }
        text += "\n";
    }
    text
}

/// Says of each target whether it is reached, at each size of full tables.
pub fn targets(rows: &[Row]) -> String {
    let full = (0..SIZES.len()).filter(|column| SIZES[*column].1 == RULES);
    full.map(|column| targets_at(rows, column)).collect()
}

const ADDS: [&str; 5] = [cases::ADD_STILL, cases::ADD_MOVING, cases::ADD_CLASHING, cases::ADD_CROWDED, cases::ADD_LONGEST];

/// The library's time for Ring check over its time for Mark, both on the shape that has the longest ring.
fn over_mark(rows: &[Row], column: usize) -> f64 {
    let of = |name: &str| rows.iter().find(|row| row.name == name && row.shape == Shape::Chain).and_then(|row| row.times[column]);
    match (of(cases::RING), of(cases::MARK)) {
        (Some(ring), Some(mark)) => ring.library / mark.library,
        _ => f64::INFINITY,
    }
}

fn targets_at(rows: &[Row], column: usize) -> String {
    let most = |names: &[&str], ratio: fn(Times) -> f64| {
        let full = rows.iter().filter(|row| names.contains(&row.name)).filter_map(|row| row.times[column]);
        full.map(ratio).fold(0.0, f64::max)
    };
    let by_hand: fn(Times) -> f64 = |t| ratios(t).0;
    let plain: fn(Times) -> f64 = |t| ratios(t).1;
    let any_ring: fn(Times) -> f64 = |t| t.any_ring.map_or(0.0, |time| t.library / time);
    let milliseconds: fn(Times) -> f64 = |t| t.library / 1e6;
    let lines = [
        ("the sound test, to one plain pass", most(&[cases::SOUND], plain), 8.0),
        ("Watch, Mark and Last day, to the same by hand", most(&[cases::WATCH, cases::MARK, cases::LAST_DAY], by_hand), 1.5),
        ("Add, to the same by hand", most(&ADDS, by_hand), 1.5),
        ("a conflict of up to 16 rules, to any ring by hand", most(&[cases::ADD_CLASHING], any_ring), 3.0),
        ("a conflict of as many rules as steps, milliseconds", most(&[cases::ADD_LONGEST], milliseconds), 100.0),
        ("Consequences, to the same by hand", most(&[cases::SPLIT_SOME, cases::SPLIT_ALL], by_hand), 2.0),
        ("Ring check, to Mark", over_mark(rows, column), 2.0),
    ];
    let mut text = format!("at {} steps and {} rules, the larger of the two shapes:\n", SIZES[column].0, SIZES[column].1);
    for (what, got, wanted) in lines {
        let verdict = if got <= wanted { "reached" } else { "MISSED" };
        text += &format!("{:<52}{:>6.2}, wanted at most {:.1}: {}\n", what, got, wanted, verdict);
    }
    text
}
