//! The reasons of refused rules: cases by hand, each for Trial and for Add, with other rings that Ring check says yes to; some where rules were withdrawn, so that a later
//! rule has a lower number. And the engine's own reasons against the definition, over all lists.

use crate::acts::Act;
use crate::compare::Both;
use crate::engine::{self, refutes, CONFLICT};
use crate::office::{Office, STEPS};
use crate::sequences::{closing, leading_on, rule};
use crate::tests::Tally;
use common::Random;
use planner::calls::Rule;
use reader::DONE;

struct Case {
    name: &'static str,
    steps: usize,
    /// How the rules held come there.
    held: Vec<Act>,
    refused: Rule,
    ring: Vec<u32>,
    /// Other rings of the refused rule: longer ones, and those that come after it.
    others: Vec<Vec<u32>>,
}

pub fn all(seed: u64, tally: &mut Tally) {
    for case in small().into_iter().chain(withdrawn()).chain(long()) {
        tally.count(&format!("the reason: {}", case.name), by_hand(&case).map_err(|why| format!("  {}", why)));
    }
    tally.count("the engine's reasons are the first of all lists", listed(seed).map_err(|why| format!("  {}", why)));
}

type Numbers = (usize, usize, i64);

fn case(name: &'static str, steps: usize, held: &[Numbers], refused: Numbers, ring: &[u32], others: &[&[u32]]) -> Case {
    let of = |(x, y, c): Numbers| rule(x, y, c);
    let held = held.iter().map(|numbers| Act::Add(of(*numbers))).collect();
    Case { name, steps, held, refused: of(refused), ring: ring.to_vec(), others: others.iter().map(|list| list.to_vec()).collect() }
}

fn small() -> Vec<Case> {
    vec![
        case("case 5", 4, &[(0, 1, -2), (1, 2, -3)], (2, 0, 4), &[2, 0, 1], &[]),
        case("case 6", 4, &[(3, 3, 0)], (3, 3, -1), &[1], &[]),
        case("a longer way has the lower numbers", 4, &[(0, 1, -1), (1, 2, -1), (2, 3, -1), (0, 3, -3)], (3, 0, 2), &[4, 3], &[&[4, 0, 1, 2]]),
        case("a rule is held twice", 4, &[(0, 1, -2), (0, 1, -2)], (1, 0, 1), &[2, 0], &[&[2, 1]]),
        case("a later rule asks for more", 4, &[(0, 1, -5), (0, 1, -9)], (1, 0, 4), &[2, 0], &[&[2, 1]]),
        case("the shortest way adds up to 0", 4, &[(0, 1, -1), (0, 2, -1), (2, 1, -1)], (1, 0, 1), &[3, 1, 2], &[]),
        case("the lowest first rule leads to no ring", 4, &[(0, 1, 0), (0, 2, -3), (1, 3, 0), (2, 3, 0)], (3, 0, 2), &[4, 1, 3], &[]),
        // Ties. The lower number at the first difference counts, whatever comes after it.
        case("ways that part at the first rule", 6, &[(0, 2, -1), (0, 1, -1), (1, 3, -1), (2, 4, -1), (3, 5, -1), (4, 5, -1)], (5, 0, 2), &[6, 0, 3, 5], &[&[6, 1, 2, 4]]),
        case("ways that part at the second rule", 6, &[(0, 1, -1), (1, 3, -1), (1, 2, -1), (2, 5, -1), (3, 5, -1)], (5, 0, 2), &[5, 0, 1, 4], &[&[5, 0, 2, 3]]),
        case("ways that part at the last rule", 6, &[(0, 1, -1), (1, 2, -1), (2, 5, -1), (2, 5, -4)], (5, 0, 2), &[4, 0, 1, 2], &[&[4, 0, 1, 3]]),
        case("ways that meet again", 6, &[(2, 5, -1), (1, 2, -1), (3, 2, -1), (0, 3, -1), (0, 1, -1)], (5, 0, 2), &[5, 3, 2, 0], &[&[5, 4, 1, 0]]),
        case(
            "a rule is held twice at each place, the last one lowest",
            4,
            &[(2, 3, -1), (2, 3, -1), (1, 2, -1), (1, 2, -1), (0, 1, -1), (0, 1, -1)],
            (3, 0, 2),
            &[6, 4, 2, 0],
            &[&[6, 5, 3, 1], &[6, 4, 2, 1], &[6, 4, 3, 0]],
        ),
        case(
            "a rule is held thrice at each place",
            4,
            &[(0, 1, -1), (0, 1, -1), (0, 1, -1), (1, 2, -1), (1, 2, -1), (1, 2, -1), (2, 3, -1), (2, 3, -1), (2, 3, -1)],
            (3, 0, 2),
            &[9, 0, 3, 6],
            &[&[9, 0, 3, 8], &[9, 2, 5, 8]],
        ),
        case("the lower way asks for less", 4, &[(0, 1, -1), (0, 2, -9), (1, 3, -1), (2, 3, -9)], (3, 0, 1), &[4, 0, 2], &[&[4, 1, 3]]),
        case("the lowest second rule leads to no ring", 6, &[(0, 1, -1), (1, 2, 0), (1, 3, -1), (2, 5, 0), (3, 5, -1)], (5, 0, 1), &[5, 0, 2, 4], &[]),
        case("the lowest last rule asks for too little", 6, &[(0, 1, -1), (1, 5, 0), (1, 5, -1)], (5, 0, 1), &[3, 0, 2], &[]),
        case("a lower first rule binds the second", 4, &[(0, 1, -1), (0, 1, -5), (1, 3, -1), (1, 3, -5)], (3, 0, 5), &[4, 0, 3], &[&[4, 1, 2], &[4, 1, 3]]),
        case("by a step with days to spare", 4, &[(0, 1, 3), (1, 2, -9), (0, 2, -5)], (2, 0, 4), &[3, 2], &[&[3, 0, 1]]),
        // Rings of one rule and of two.
        case("the rule alone, with none held", 1, &[], (0, 0, -1), &[0], &[]),
        case("the rule alone, over rules of its step", 3, &[(2, 2, 0), (2, 2, 0), (0, 1, -1), (1, 2, -1), (2, 0, 2)], (2, 2, -1), &[5], &[]),
        case("the rule alone, on a ring of sum 0", 3, &[(0, 1, 0), (1, 0, 0)], (0, 0, -1), &[2], &[]),
        case("the rule alone, of the smallest amount", 2, &[(0, 1, -1_000_000), (1, 0, 1_000_000)], (1, 1, -1_000_000), &[2], &[]),
        case("a rule and its negation", 2, &[(0, 1, -2)], (1, 0, 1), &[1, 0], &[]),
        case("the largest amounts", 3, &[(0, 1, -1_000_000), (1, 2, -1_000_000), (0, 2, 1_000_000)], (2, 0, 1_000_000), &[3, 0, 1], &[]),
        // Rules that lead round with nothing to spare.
        case("rings of sum 0 on the way", 3, &[(0, 1, 0), (1, 0, 0), (1, 2, -3), (2, 1, 3)], (2, 0, 2), &[4, 0, 2], &[]),
        case("a ring of sum 0 above day 0", 4, &[(0, 1, -2), (1, 2, 0), (2, 1, 0), (2, 3, -1)], (3, 0, 2), &[4, 0, 1, 3], &[]),
        case("rules of one step on the way", 3, &[(1, 1, 0), (0, 1, -1), (0, 0, 0), (1, 2, -1), (2, 2, 0)], (2, 0, 1), &[5, 1, 3], &[]),
        case("a way on from the refused rule's first step", 4, &[(0, 1, -1), (1, 2, 0), (2, 1, 0), (0, 3, 0), (3, 1, -1)], (1, 0, 0), &[5, 0], &[&[5, 3, 4]]),
    ]
}

/// Rules under the numbers of others that were withdrawn, and free numbers between those held.
fn withdrawn() -> Vec<Case> {
    let add = |(x, y, c): Numbers| Act::Add(rule(x, y, c));
    let after = |name, held: &[Numbers], acts: &[Act], refused: Numbers, ring: &[u32], others: &[&[u32]]| {
        let mut case = case(name, 6, held, refused, ring, others);
        case.held.extend_from_slice(acts);
        case
    };
    let three = [(0, 1, -2), (1, 2, -3), (2, 3, -1)];
    vec![
        after("the would-be number is that of the rule withdrawn", &three, &[Act::Withdraw(1)], (1, 0, 1), &[1, 0], &[]),
        after("another rule has that number", &three, &[Act::Withdraw(1), add((3, 0, 5))], (1, 0, 1), &[3, 0], &[]),
        after("the would-be number is the lowest of two", &three, &[Act::Withdraw(2), Act::Withdraw(0)], (2, 1, 2), &[0, 1], &[]),
        after("the would-be number is below all held", &three, &[Act::Withdraw(0)], (3, 1, 3), &[0, 1, 2], &[]),
        // Ties, by the numbers and not by the order of adding.
        after("a later rule of a lower number", &[(5, 5, 0), (0, 1, -2)], &[Act::Withdraw(0), add((0, 1, -2))], (1, 0, 1), &[2, 0], &[&[2, 1]]),
        after(
            "a later way of lower numbers",
            &[(5, 5, 0), (5, 5, 0), (0, 1, -1), (1, 3, -1)],
            &[Act::Withdraw(0), Act::Withdraw(1), add((2, 3, -1)), add((0, 2, -1))],
            (3, 0, 1),
            &[4, 1, 0],
            &[&[4, 2, 3]],
        ),
        after("the shortest way is withdrawn", &[(0, 3, -3), (0, 1, -1), (1, 2, -1), (2, 3, -1)], &[Act::Withdraw(0)], (3, 0, 2), &[0, 1, 2, 3], &[]),
        after("of two as short the lower is withdrawn", &[(0, 1, -2), (0, 1, -2), (0, 1, -2)], &[Act::Withdraw(0)], (1, 0, 1), &[0, 1], &[&[0, 2]]),
        after("what was withdrawn is added again", &three, &[Act::Withdraw(0), Act::Withdraw(1), add(three[1]), add(three[0])], (2, 0, 4), &[3, 1, 0], &[]),
        after("Back frees every place of its level", &three[..1], &[Act::Mark, add(three[1]), Act::Withdraw(0), add((0, 2, -9)), Act::Mark, add(three[2]), Act::Back, Act::Back], (2, 2, -1), &[0], &[]),
        after(
            "Back frees the lower of two",
            &[(5, 5, 0), (0, 1, -2)],
            &[Act::Mark, Act::Withdraw(0), add((0, 1, -3)), Act::Back],
            (1, 0, 1),
            &[0, 1],
            &[],
        ),
    ]
}

/// Rings of 16, 256 and 1,024 rules.
fn long() -> Vec<Case> {
    let chain = |steps: usize, amount: i64| (1..steps).map(move |step| rule(step - 1, step, amount));
    let added = |rules: Vec<Rule>| rules.into_iter().map(Act::Add).collect::<Vec<Act>>();
    // The caller writes rules that the days keep: they are dear to add one by one.
    let mut full = vec![Act::Hold(rule(3, 3, 0), reader::RULES - 16)];
    full.extend(added(chain(16, -1).collect()));
    // Every place is taken, and then one in the middle is free; a rule of the chain is under the number of another.
    let mut one_free = full.clone();
    one_free.extend([Act::Add(rule(7, 7, 0)), Act::Withdraw(4_081), Act::Withdraw(9), Act::Add(rule(1, 2, -1)), Act::Hold(rule(3, 3, 0), 1), Act::Withdraw(2_000)]);
    let with_other = [2_000, 4_080, 9].into_iter().chain(4_082..4_095).collect();
    // All with nothing to spare: a chain, its rules turned round, rules of one step, and the chain once more.
    let mut tight = added(chain(STEPS, -1).collect());
    let turned = (1..STEPS).map(|step| rule(step, step - 1, 1)).chain((0..STEPS).map(|step| rule(step, step, 0)));
    tight.extend(turned.chain(chain(STEPS, -1)).map(|rule| Act::Hold(rule, 1)));
    let over = |name, held: Vec<Act>, (x, y, c): Numbers, ring: Vec<u32>| Case { name, steps: STEPS, held, refused: rule(x, y, c), ring, others: Vec::new() };
    let after = |next: u32, others: std::ops::Range<u32>| [next].into_iter().chain(others);
    vec![
        over("a ring of 16 rules in full tables", full, (15, 0, 14), after(4_095, 4_080..4_095).collect()),
        over("a ring of 16 rules with one free place", one_free, (15, 0, 14), with_other),
        over("a ring of 256 rules, the last one the lowest", added(chain(256, -1).rev().collect()), (255, 0, 254), after(255, 0..0).chain((0..255).rev()).collect()),
        over("a ring of 1,024 rules", added(chain(STEPS, -1_000_000).collect()), (STEPS - 1, 0, 1_000_000), after(1_023, 0..1_023).collect()),
        over("a ring of 1,024 rules in full tables with nothing to spare", tight, (STEPS - 1, 0, 1_022), after(4_093, 0..1_023).collect()),
    ]
}

/// The reason by Trial and by Add, both as the case has it; Ring check says yes to it and to the case's other rings.
fn by_hand(case: &Case) -> Result<(), String> {
    let mut both = Both::new(1);
    let open = Act::Open(case.steps as u32);
    for act in [&open].into_iter().chain(&case.held) {
        let given = both.make(act)?;
        if given.number != DONE {
            return Err(format!("{}: {:?}", act, given));
        }
    }
    for act in [Act::Trial(case.refused), Act::Add(case.refused)] {
        let given = both.make(&act)?;
        let list = if act == Act::Add(case.refused) { &both.office().one } else { &both.office().two };
        let ring = &list.part()[..given.one as usize];
        if given.number != CONFLICT || ring != case.ring {
            return Err(format!("{}: wanted {:?}, got {:?}, {:?}", act, case.ring, given, ring));
        }
    }
    for ring in [&case.ring].into_iter().chain(&case.others) {
        let act = Act::RingCheck(case.refused, ring.clone());
        let given = both.make(&act)?;
        if given.one != 1 {
            return Err(format!("{}: {:?}", act, given));
        }
    }
    Ok(())
}

/// How many reasons are compared with all lists; for a fourth of them and more there are several as short.
const COMPARED: usize = 1_000;

/// Over few steps and rules, some of which are withdrawn, the engine's reason is the first list that refutes, of all lists by their length and then in order.
fn listed(seed: u64) -> Result<(), String> {
    let mut random = Random::new(seed ^ 0x0011_5735);
    let (mut compared, mut chosen, mut between) = (0, 0, 0);
    while compared < COMPARED {
        let mut office = Office::new(random.next());
        let steps = 2 + random.below(4);
        engine::carry_out(&mut office, &Act::Open(steps as u32));
        while office.counts().rules < 9 {
            if random.chance(300) {
                engine::carry_out(&mut office, &Act::Withdraw(random.below(9) as u32));
            }
            let from = random.below(steps - 1);
            let any = if random.chance(500) { leading_on(&mut random, from, steps) } else { closing(&mut random, steps, &office) };
            let given = engine::carry_out(&mut office, &Act::Add(any));
            if given.number == CONFLICT {
                let lists = shortest(&office, any);
                let ring = &office.one.part()[..given.one as usize];
                if ring != lists[0] {
                    return Err(format!("{:?} over {:?}: {:?}, and of all lists {:?}", any, engine::rules(&office), ring, lists[0]));
                }
                compared += 1;
                chosen += usize::from(lists.len() > 1);
                between += usize::from(ring[0] < office.counts().rules);
            }
        }
    }
    if chosen < COMPARED / 4 || between < COMPARED / 10 {
        return Err(format!("of {} refused rules only {} had several rings as short, and {} a free number below one that was held", compared, chosen, between));
    }
    Ok(())
}

/// The shortest lists that refute the rule, in order. There are some.
fn shortest(office: &Office, rule: Rule) -> Vec<Vec<u32>> {
    let held = office.numbers();
    let mut lists = vec![vec![office.next_number()]];
    loop {
        let found: Vec<Vec<u32>> = lists.iter().filter(|list| refutes(office, rule, list)).cloned().collect();
        if !found.is_empty() {
            return found;
        }
        lists = lists.iter().flat_map(|list| held.iter().map(move |number| [&list[..], &[*number]].concat())).collect();
    }
}
