//! The story of the tender: a cooperative has planned its hay, a buyer asks for an earlier delivery, and the office sees whether it can be had, and why not, in as few
//! rules as say it. What it prints is compared with `tender.out`, written by hand.

use planner::{Moved, Planner, Refusal, Ring, Rule};

const NAMES: [&str; 5] = ["the tender", "cutting", "drying", "pressing", "delivery"];
const TENDER: u32 = 0;
const CUTTING: u32 = 1;
const DRYING: u32 = 2;
const PRESSING: u32 = 3;
const DELIVERY: u32 = 4;

fn main() -> Result<(), Refusal> {
    let mut planner = Planner::open(NAMES.len() as u32)?;
    println!("The season's rules:");
    let season = [
        Rule::at_least(3, CUTTING, TENDER),
        Rule::at_least(2, DRYING, CUTTING),
        Rule::at_least(4, PRESSING, DRYING),
        Rule::at_most(6, PRESSING, DRYING),
        Rule::at_least(1, DELIVERY, PRESSING),
        Rule::at_most(14, DELIVERY, TENDER),
    ];
    for rule in season {
        planner.add(rule)?;
        println!("  {}", in_words(rule));
    }
    show_plan(&planner);
    let before = planner.days().to_vec();

    println!("\nThe buyer would like the hay earlier. The office tries it; nothing is changed by that.");
    for days in [11, 9] {
        let rule = Rule::at_most(days, DELIVERY, TENDER);
        match planner.trial(rule) {
            Ok(trial) => println!("  {}? It fits, and {}.", in_words(rule), how_many(trial.moved)),
            Err(Refusal::Conflict(ring)) => println!("  {}? It cannot be kept, and no fewer rules say why:\n    {}", in_words(rule), why(&ring)),
            Err(other) => return Err(other),
        }
    }
    assert_eq!(planner.days(), before);

    println!("\nThe office sets a mark and takes up what the buyer asks for, rule by rule.");
    planner.mark()?;
    let inspected = Rule::at_least(3, DELIVERY, PRESSING);
    let moved = planner.add(inspected)?;
    println!("  {}: held, and {}.", in_words(inspected), how_many(moved));
    show_plan(&planner);
    let earlier = Rule::at_most(10, DELIVERY, TENDER);
    match planner.add(earlier) {
        Ok(_) => panic!("the earlier deadline was accepted"),
        Err(Refusal::Conflict(ring)) => {
            println!("  {}: it cannot be kept, and no fewer rules say why:\n    {}", in_words(earlier), why(&ring));
            assert!(planner.ring_check(earlier, ring.numbers())?);
        }
        Err(other) => return Err(other),
    }

    println!("\nThe office goes back to the mark.");
    planner.back()?;
    show_plan(&planner);
    assert_eq!(planner.days(), before);
    assert!(planner.rules().map(|(_, rule)| rule).eq(season));
    println!("Every day is the one that it was before the mark.");
    Ok(())
}

/// Prints the day of every step.
fn show_plan(planner: &Planner) {
    let days: Vec<String> = planner.days().iter().zip(NAMES).map(|(day, name)| format!("{} on day {}", name, day)).collect();
    println!("The earliest plan: {}.", days.join(", "));
}

/// A rule as a member says it.
fn in_words(rule: Rule) -> String {
    let (first, second) = (NAMES[rule.first as usize], NAMES[rule.second as usize]);
    match rule.amount {
        0 => format!("{} no later than {}", first, second),
        c if c < 0 => format!("{} at least {} after {}", second, days(-i64::from(c)), first),
        c => format!("{} at most {} after {}", first, days(i64::from(c)), second),
    }
}

/// Why the first rule of a ring cannot be kept along with the others. The ring is the shortest there is, so that a member can hear it to its end.
fn why(ring: &Ring) -> String {
    let rules: Vec<String> = ring.rules().iter().map(|rule| in_words(*rule)).collect();
    let lacking = -ring.sum();
    let there = if lacking == 1 { "there is" } else { "there are" };
    format!("{}; together they ask for {} more than {}", rules.join("; "), days(lacking), there)
}

fn days(count: i64) -> String {
    format!("{} {}", count, if count == 1 { "day" } else { "days" })
}

fn how_many(moved: Moved) -> String {
    match moved.0 {
        0 => "no step moves".to_string(),
        1 => "1 step moves".to_string(),
        more => format!("{} steps move", more),
    }
}
