use planner::{Planner, Refusal, Rule};

fn main() -> Result<(), Refusal> {
    let (cutting, drying, delivery) = (0, 1, 2);
    let mut planner = Planner::open(3)?;
    planner.add(Rule::at_least(2, drying, cutting))?;
    planner.add(Rule::at_least(3, delivery, drying))?;
    println!("delivery on day {}", planner.days()[delivery as usize]);
    if let Err(Refusal::Conflict(ring)) = planner.add(Rule::at_most(4, delivery, cutting)) {
        let numbers: Vec<String> = ring.numbers().iter().map(u32::to_string).collect();
        println!("no delivery on day 4, because of rules {}", numbers.join(" "));
    }
    Ok(())
}
