//! How the time of a call grows over five sizes: four with twice the steps and twice the rules of the one before, and full tables with all steps.

use crate::cases::{cases, ADD_CLASHING, ADD_MOVING, ADD_STILL, BACK, SOUND, SPLIT_ALL};
use crate::measure::measure;
use crate::shapes::Shape;
use planner::bounds::{RULES, STEPS};

/// Steps and rules; a fourth as many rules are watched.
pub const SIZES: [(usize, usize); 5] = [(32, 512), (64, 1024), (128, 2048), (256, RULES), (STEPS, RULES)];

/// The largest of the sizes that double.
const DOUBLED: usize = 3;

/// How many times as many steps + rules as the first a size has.
pub fn larger((steps, rules): (usize, usize)) -> f64 {
    (steps + rules) as f64 / (SIZES[0].0 + SIZES[0].1) as f64
}

/// How much more than steps + rules a time may grow: a tenth, for what the clock cannot tell.
const WANTED: f64 = 1.1;

const CALLS: [&str; 6] = [SOUND, ADD_STILL, ADD_MOVING, ADD_CLASHING, BACK, SPLIT_ALL];

/// One call: its time at each size over its time at the first.
pub struct Line {
    pub name: &'static str,
    pub shape: Shape,
    pub times: [f64; SIZES.len()],
}

/// Measures the calls at all sizes, in both shapes.
pub fn lines() -> Vec<Line> {
    let mut lines = Vec::new();
    for shape in Shape::ALL {
        let mut times = [[0.0; SIZES.len()]; CALLS.len()];
        for (column, (steps, rules)) in SIZES.into_iter().enumerate() {
            for case in cases(shape, steps, rules, rules / 4) {
                if let Some(row) = CALLS.iter().position(|name| *name == case.name) {
                    times[row][column] = measure(&case).library;
                }
            }
        }
        for (name, times) in CALLS.into_iter().zip(times) {
            lines.push(Line { name, shape, times: times.map(|time| time / times[0]) });
        }
    }
    lines
}

/// Prints the lines, and whether the target is reached where the tables have doubled; for all steps just how much the times grow.
pub fn print(lines: &[Line]) {
    print!("{:<32}{:<8}", "the time of a call grows as", "shape");
    SIZES.iter().for_each(|(steps, rules)| print!("{:>10}", format!("{}/{}", steps, rules)));
    println!();
    for line in lines {
        print!("{:<32}{:<8}", line.name, line.shape.name());
        line.times.iter().for_each(|time| print!("{:>10.1}", time));
        println!();
    }
    for column in [DOUBLED, SIZES.len() - 1] {
        let size = SIZES[column];
        let plain = lines.iter().filter(|line| line.name != BACK && line.name != SPLIT_ALL);
        let worst = plain.max_by(|a, b| a.times[column].total_cmp(&b.times[column])).expect("there are such calls");
        let (grown, wanted) = (worst.times[column], WANTED * larger(size));
        print!("to {}/{} steps + rules grow {:.1} times; of all but Back and Consequences '{}', {}, grows most, {:.1} times", size.0, size.1, larger(size), worst.name, worst.shape.name(), grown);
        match column {
            DOUBLED => println!(", wanted at most {:.1}: {}", wanted, if grown <= wanted { "reached" } else { "MISSED" }),
            _ => println!(),
        }
    }
}
