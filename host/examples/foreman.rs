//! The foreman of one yard asks about every pair of steps: how many days lie between the two at least, and at most. Each answer is the limit of a pair, which the planner has
//! at hand with up to 16 steps. What it prints is compared with `foreman.out`, written by hand.

use planner::{Planner, Refusal, Rule};

const NAMES: [&str; 4] = ["cutting", "drying", "pressing", "cleaning"];
const CUTTING: u32 = 0;
const DRYING: u32 = 1;
const PRESSING: u32 = 2;

fn main() -> Result<(), Refusal> {
    let mut planner = Planner::open(NAMES.len() as u32)?;
    println!("Two rules are held: drying at least 2 days after cutting, pressing at least 3 days after drying.");
    planner.add(Rule::at_least(2, DRYING, CUTTING))?;
    planner.add(Rule::at_least(3, PRESSING, DRYING))?;
    let before = show_pairs(&planner)?;

    println!("\nThe press is at hand until the 9th day after cutting. The foreman marks, and enters that.");
    planner.mark()?;
    planner.add(Rule::at_most(9, PRESSING, CUTTING))?;
    show_pairs(&planner)?;
    println!("Drying may begin 6 days after cutting and no later, which no rule says.");
    assert_eq!(planner.gap(DRYING, CUTTING)?, Some(6));

    println!("\nThe press stays longer: back to the mark.");
    planner.back()?;
    assert_eq!(show_pairs(&planner)?, before);
    Ok(())
}

/// Prints what is known of every pair, and gives it.
fn show_pairs(planner: &Planner) -> Result<Vec<String>, Refusal> {
    let steps = planner.counts().steps;
    let mut told = Vec::new();
    for first in 0..steps {
        for second in first + 1..steps {
            told.push(format!("  {} after {}: {}", NAMES[second as usize], NAMES[first as usize], days_between(planner, first, second)?));
        }
    }
    told.iter().for_each(|line| println!("{}", line));
    Ok(told)
}

/// The days from the one step to the other, in all arrangements. The limit of a pair is how many days the first may come after the second, below 0 how many it comes before it.
fn days_between(planner: &Planner, from: u32, to: u32) -> Result<String, Refusal> {
    Ok(match (planner.gap(from, to)?, planner.gap(to, from)?) {
        (None, None) => "any number of days, or before it".to_string(),
        (Some(early), None) => format!("{} days or more", -early),
        (None, Some(late)) => format!("{} days or fewer", late),
        (Some(early), Some(late)) => format!("{} to {} days", -early, late),
    })
}
