//! Long rings in which one step is met again, at every distance from one place to the ring's length; beside the rings as they are. Some places between the rules are
//! free, and the lowest of them is the number of the rule asked about.

use crate::acts::Act;
use crate::compare::Both;
use crate::office::{STEPS, STEPS_BEFORE};
use crate::sequences::{rule, shuffle};
use crate::tests::Tally;
use common::Random;
use planner::calls::Rule;

/// How many rules the rings have: few, around one, two and three windows of steps, the bound before and the bound.
const LENGTHS: [usize; 12] = [2, 3, 17, 63, 64, 65, 127, 128, 129, 191, STEPS_BEFORE, STEPS];

/// Each length with the steps in order and in no order. One test for each.
pub fn all(tally: &mut Tally) {
    for (number, length) in LENGTHS.into_iter().enumerate() {
        for in_order in [true, false] {
            let seed = 2 * number as u64 + u64::from(in_order);
            let asked = met_again(length, in_order, &mut Random::new(seed));
            let failure = compared(seed, &asked, tally);
            let acts: Vec<Act> = asked.into_iter().map(|(act, _)| act).collect();
            let name = format!("rings of {} rules, {}", length, if in_order { "in order" } else { "in no order" });
            tally.count_sequence(&name, seed, &acts, failure);
        }
    }
}

/// Makes the calls by both engines; each must say what is wanted of it, where something is.
fn compared(seed: u64, asked: &[(Act, Option<u64>)], tally: &mut Tally) -> Option<String> {
    let mut both = Both::new(seed);
    for (act, wanted) in asked {
        match both.make(act) {
            Err(why) => return Some(why),
            Ok(given) if wanted.map_or(false, |wanted| given.number != 0 || given.one != wanted) => return Some(format!("wanted {:?}, both gave {:?}", wanted, given)),
            Ok(given) => tally.note(act, given),
        }
    }
    None
}

/// Places whose step is met again, with how many places further: each distance once. The rule asked about stands at the first place, and its step can be met again
/// from the third place on.
fn places(length: usize, random: &mut Random) -> Vec<(usize, usize)> {
    let mut places = Vec::new();
    for distance in 1..length {
        let from = usize::from(distance == 1);
        if from + distance < length {
            places.push((from + random.below(length - distance - from), distance));
        }
    }
    places
}

/// How many free places there are at most before the end of the rules held.
const HOLES: usize = 4;

/// Tables of as many steps as the ring has rules, with every rule that the lists need, and the lists: the ring, and for each distance the ring with one step met
/// again that far on. All amounts are 0 but that of the rule asked about, so that a list is a ring unless it meets a step twice. Others like the ring's last rule stand
/// between them, and are withdrawn: with one of these in its place the list is no ring.
fn met_again(length: usize, in_order: bool, random: &mut Random) -> Vec<(Act, Option<u64>)> {
    let mut steps: Vec<usize> = (0..length).collect();
    if !in_order {
        shuffle(&mut steps, random);
    }
    // At each place of the ring stands a rule from its step to the next; past the end come the first steps again.
    let step = |place: usize| steps[place % length];
    let mut rules: Vec<Rule> = (1..length).map(|place| rule(step(place), step(place + 1), 0)).collect();
    let places = places(length, random);
    for (place, distance) in &places {
        rules.push(rule(step(place + distance - 1), step(*place), 0));
        rules.push(rule(step(*place), step(place + distance + 1), 0));
    }
    let like = rules[length - 2];
    let mut holes: Vec<usize> = (0..random.below(HOLES + 1)).map(|_| random.below(rules.len() + 1)).collect();
    holes.sort_unstable();
    holes.dedup();
    let mut all = rules;
    holes.iter().enumerate().for_each(|(before, hole)| all.insert(hole + before, like));
    let holes: Vec<u32> = holes.iter().enumerate().map(|(before, hole)| (hole + before) as u32).collect();
    let numbers: Vec<u32> = (0..all.len() as u32).filter(|number| !holes.contains(number)).collect();
    let (new, next) = (rule(step(0), step(1), -1), holes.first().copied().unwrap_or(all.len() as u32));
    let of = |number: u32| if number == next { new } else { all[number as usize] };
    let ring: Vec<u32> = std::iter::once(next).chain(numbers[..length - 1].iter().copied()).collect();
    let mut checks = vec![(Act::RingCheck(new, ring.clone()), Some(1))];
    for (number, (place, distance)) in places.into_iter().enumerate() {
        let mut list = ring.clone();
        let back = length - 1 + 2 * number;
        list[place + distance - 1] = numbers[back];
        list[place + distance] = numbers[back + 1];
        assert!((0..length).all(|at| of(list[at]).second == of(list[(at + 1) % length]).first), "the rules of {:?} do not lead on", list);
        checks.push((Act::RingCheck(new, list), Some(0)));
    }
    // Nor is it one with the rule asked about under another number.
    let other = |at: usize, number: u32| {
        let mut list = ring.clone();
        list[at] = number;
        (Act::RingCheck(new, list), Some(0))
    };
    checks.extend(holes.iter().map(|hole| other(length - 1, *hole)));
    checks.extend(holes.iter().skip(1).chain([&(all.len() as u32 + 1)]).map(|number| other(0, *number)));
    checks.push((Act::RingCheck(new, ring.clone()), Some(1)));
    let held = all.iter().map(|rule| (Act::Hold(*rule, 1), None));
    let gone = holes.iter().map(|hole| (Act::Withdraw(*hole), Some(0)));
    std::iter::once((Act::Open(length as u32), None)).chain(held).chain(gone).chain(checks).collect()
}
