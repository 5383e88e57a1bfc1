//! The accounts deadline moves: it was entered first and sits under forty later rules. It is withdrawn by its number, the new one is entered, and nothing else is entered
//! again. What it prints is compared with `deadline.out`, written by hand.

use planner::{Moved, Planner, Refusal, Rule};

const HARVEST: u32 = 0;
const ACCOUNTS: u32 = 1;
const LOTS: u32 = 10;

/// The two steps of a lot, which are numbered from 1.
fn weighing(lot: u32) -> u32 {
    2 * lot
}

fn invoice(lot: u32) -> u32 {
    2 * lot + 1
}

fn main() -> Result<(), Refusal> {
    let mut planner = Planner::open(2 + 2 * LOTS)?;
    println!("The accounts deadline is entered first:");
    let deadline = enter(&mut planner, Rule::at_most(30, ACCOUNTS, HARVEST))?;
    println!("  rule {}: {}", deadline, in_words(planner.rule(deadline).expect("it is held")));
    println!("Forty rules come after it, four for each lot:");
    for lot in 1..=LOTS {
        let rules = [
            Rule::at_least(2 * lot as i32, weighing(lot), HARVEST),
            Rule::at_least(2, invoice(lot), weighing(lot)),
            Rule::at_most(9, invoice(lot), weighing(lot)),
            Rule::at_least(5, ACCOUNTS, invoice(lot)),
        ];
        for rule in rules {
            let number = enter(&mut planner, rule)?;
            if lot == 1 || lot == LOTS {
                println!("  rule {}: {}", number, in_words(rule));
            } else if number % 4 == 1 {
                println!("  rules {} to {}: the same for lot {}", number, number + 3, lot);
            }
        }
    }
    show_plan(&planner);

    println!("\nThe last lot comes late. The office tries it; nothing is changed by that.");
    let late = Rule::at_least(24, weighing(LOTS), HARVEST);
    match planner.trial(late) {
        Ok(_) => panic!("the late lot was accepted"),
        Err(Refusal::Conflict(ring)) => {
            println!("  {}? It cannot be kept, because of", in_words(late));
            for (number, rule) in ring.numbers().iter().zip(ring.rules()).skip(1) {
                println!("    rule {}: {}", number, in_words(*rule));
            }
        }
        Err(other) => return Err(other),
    }

    println!("\nThe deadline is moved by fifteen days: the old one is withdrawn, and the new one entered.");
    let (days, others) = (planner.days().to_vec(), held_but(&planner, deadline));
    planner.withdraw(deadline)?;
    println!("  rule {} is withdrawn; {} rules are held.", deadline, planner.counts().rules);
    let later = Rule::at_most(45, ACCOUNTS, HARVEST);
    let number = enter(&mut planner, later)?;
    println!("  {}: held as rule {}.", in_words(later), number);
    assert_eq!((number, planner.days()), (deadline, &days[..]));
    assert_eq!((held_but(&planner, deadline), others.len()), (others, 40));
    println!("The forty others were not entered again: each has the number that it had.");

    println!("\nNow the late lot fits.");
    let number = planner.next_number();
    let Moved(moved) = planner.add(late)?;
    println!("  {}: held as rule {}, and {} steps move.", in_words(late), number, moved);
    show_plan(&planner);
    Ok(())
}

/// Adds a rule and gives its number.
fn enter(planner: &mut Planner, rule: Rule) -> Result<u32, Refusal> {
    let number = planner.next_number();
    planner.add(rule)?;
    Ok(number)
}

/// The rules held, with their numbers, but for one.
fn held_but(planner: &Planner, one: u32) -> Vec<(u32, Rule)> {
    planner.rules().filter(|(number, _)| *number != one).collect()
}

/// Prints the days that the office looks at.
fn show_plan(planner: &Planner) {
    let days: Vec<String> = [weighing(LOTS), invoice(LOTS), ACCOUNTS].iter().map(|step| format!("{} on day {}", name(*step), planner.days()[*step as usize])).collect();
    println!("The earliest plan: {}.", days.join(", "));
}

fn name(step: u32) -> String {
    match step {
        HARVEST => "the harvest".to_string(),
        ACCOUNTS => "the accounts".to_string(),
        _ if step % 2 == 0 => format!("weighing lot {}", step / 2),
        _ => format!("the invoice of lot {}", step / 2),
    }
}

/// A rule as a member says it.
fn in_words(rule: Rule) -> String {
    let (first, second) = (name(rule.first), name(rule.second));
    match rule.amount {
        c if c < 0 => format!("{} at least {} days after {}", second, -c, first),
        c => format!("{} at most {} days after {}", first, c, second),
    }
}
