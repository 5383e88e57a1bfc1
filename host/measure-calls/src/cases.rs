//! What is measured: each call on sound tables of one shape and size. Every case is carried out once by both engines, and compared, before it is
//! measured. The sound test alone is Mark where 64 marks are open: it is FULL after that test and does nothing else.

use crate::agree::both;
use crate::byhand::{CONFLICT, DONE, FULL};
use crate::office::{Call, Office, BY_HAND, LIBRARY};
use crate::shapes::{clashing, crowded, moving, office, rule, sparing, still, tight, Shape, Size};
use planner::bounds::YARD_STEPS;
use planner::calls::Rule;

pub struct Case {
    pub name: &'static str,
    pub call: Call,
    pub office: Office,
    pub conflict: bool,
}

pub const SOUND: &str = "the sound test";
pub const WATCH: &str = "Watch";
pub const MARK: &str = "Mark";
pub const ADD_STILL: &str = "Add, nothing moves";
pub const ADD_LOWERING: &str = "Add, most limits fall";
pub const ADD_MOVING: &str = "Add, all but one step moves";
pub const ADD_CLASHING: &str = "Add, conflict, up to 16 rules";
pub const ADD_CROWDED: &str = "Add, conflict, 16 rules, crowded";
pub const ADD_LONGEST: &str = "Add, conflict, as many as steps";
pub const BACK: &str = "Back, half of the rules go";
pub const WITHDRAW_SPARING: &str = "Withdraw, with days to spare";
pub const WITHDRAW_MOVING: &str = "Withdraw, moves most steps";
pub const TRIAL: &str = "Trial, all but one step moves";
pub const RING: &str = "Ring check, as many as steps";
pub const SPLIT_SOME: &str = "Consequences, 64 steps watched";
pub const SPLIT_ALL: &str = "Consequences, all steps watched";
pub const LAST_DAY: &str = "Last day";
pub const GAP: &str = "Gap";

/// The cases of one shape and size; Consequences with so many watched rules, the other calls with a fourth of the rules.
pub fn cases(shape: Shape, steps: usize, rules: usize, watched: usize) -> Vec<Case> {
    let size = Size { steps, rules, watched: rules / 4, over: steps, marks: 63 };
    let held = office(shape, size);
    let before_add = office(shape, Size { rules: rules - 1, ..size });
    let moving = moving(shape, &before_add);
    let mut cases = vec![
        case(SOUND, Call::Mark, FULL, office(shape, Size { marks: 64, ..size })),
        case(MARK, Call::Mark, DONE, held.clone()),
        case(WATCH, Call::Watch(rule(0, 1, 5)), DONE, office(shape, Size { watched: rules / 4 - 1, ..size })),
        case(LAST_DAY, Call::LastDay, DONE, held.clone()),
        case(ADD_STILL, Call::Add(still(&before_add)), DONE, before_add.clone()),
        case(ADD_MOVING, Call::Add(moving), DONE, before_add.clone()),
        case(TRIAL, Call::Trial(moving), DONE, before_add.clone()),
        clash(shape, &before_add),
        case(WITHDRAW_SPARING, Call::Withdraw(sparing(&held)), DONE, held.clone()),
        // The rule that moved them, and that came last.
        case(WITHDRAW_MOVING, Call::Withdraw(before_add.counts.rules), DONE, both(&before_add, Call::Add(moving)).0),
        case(BACK, Call::Back, DONE, held),
    ];
    if shape == Shape::Chain {
        let (longest, tight) = (rule(steps - 1, 0, steps as i64 - 2), tight(steps, rules - 1));
        cases.push(case(ADD_CROWDED, Call::Add(rule(15, 0, -100_000)), CONFLICT, crowded(steps, rules - 1)));
        cases.push(ring_check(longest, &tight));
        cases.push(case(ADD_LONGEST, Call::Add(longest), CONFLICT, tight));
    }
    if steps > 64 {
        cases.push(case(SPLIT_SOME, Call::Consequences, DONE, office(shape, Size { watched, over: 64, ..size })));
    }
    cases.push(case(SPLIT_ALL, Call::Consequences, DONE, office(shape, Size { watched, ..size })));
    cases
}

/// The cases of one yard, of as many steps as it may have and so many rules: the calls that look at the gap table alone, and those that bring it up to date.
pub fn yard_cases(shape: Shape, rules: usize) -> Vec<Case> {
    let size = Size { steps: YARD_STEPS, rules, watched: rules / 4, over: YARD_STEPS, marks: 63 };
    let held = office(shape, size);
    let before_add = office(shape, Size { rules: rules - 1, ..size });
    let moving = moving(shape, &before_add);
    vec![
        case(MARK, Call::Mark, DONE, held.clone()),
        case(GAP, Call::Gap(0, YARD_STEPS as u32 - 2), DONE, held.clone()),
        case(ADD_STILL, Call::Add(still(&before_add)), DONE, before_add.clone()),
        case(ADD_LOWERING, lowering(&before_add), DONE, before_add.clone()),
        case(ADD_MOVING, Call::Add(moving), DONE, before_add.clone()),
        case(WITHDRAW_SPARING, Call::Withdraw(sparing(&held)), DONE, held.clone()),
        case(WITHDRAW_MOVING, Call::Withdraw(before_add.counts.rules), DONE, both(&before_add, Call::Add(moving)).0),
        case(BACK, Call::Back, DONE, held),
    ]
}

/// The rule with nothing to spare, and so with no day that moves, by which the most cells of the gap table fall.
fn lowering(office: &Office) -> Call {
    let day = |step: usize| i64::from(office.days[step]);
    let fallen = |call: &Call| {
        let mut after = office.clone();
        after.carry(&BY_HAND, *call);
        office.gaps.iter().flatten().zip(after.gaps.iter().flatten()).filter(|(before, after)| before != after).count()
    };
    let pairs = (0..YARD_STEPS).flat_map(|x| (0..YARD_STEPS).map(move |y| (x, y)));
    pairs.map(|(x, y)| Call::Add(rule(x, y, day(x) - day(y)))).max_by_key(fallen).expect("a rule")
}

/// A case of which both engines say the same, with the number wanted.
fn case(name: &'static str, call: Call, wanted: u32, office: Office) -> Case {
    let (after, given) = both(&office, call);
    assert!(given.number == wanted, "{}: {:?} gives {:?}", name, call, given);
    let (steps, ring) = (office.counts.steps as usize, given.values[0] as usize);
    let moved = office.days.iter().zip(&after.days).filter(|(before, after)| before != after).count();
    match name {
        ADD_STILL | ADD_LOWERING | WITHDRAW_SPARING => assert!(moved == 0, "{} steps move", moved),
        ADD_MOVING | WITHDRAW_MOVING => assert!(moved == steps - 1, "{} of {} steps move", moved, steps),
        ADD_CLASHING => assert!(ring <= LONG, "a ring of {} rules", ring),
        ADD_CROWDED => assert!(ring == LONG, "a ring of {} rules", ring),
        ADD_LONGEST => assert!(ring == steps, "a ring of {} rules and {} steps", ring, steps),
        RING => assert!(ring == 1, "no ring of {:?}", call),
        GAP => assert!(given.values[0] == 1, "no limit of {:?}", call),
        _ => {}
    }
    Case { name, call, office, conflict: wanted == CONFLICT }
}

/// A ring of so many rules is long for whoever reads it aloud.
const LONG: usize = 16;

/// The refused rule, of those that the shape has, with the longest ring of at most 16 rules.
fn clash(shape: Shape, office: &Office) -> Case {
    let given = |call: &Call| office.clone().carry(&BY_HAND, *call);
    let fine = |call: &Call| given(call).number == CONFLICT && given(call).values[0] as usize <= LONG;
    let refused = clashing(shape, office, LONG).into_iter().map(Call::Add).filter(fine).max_by_key(|call| given(call).values[0]).expect("a rule");
    case(ADD_CLASHING, refused, CONFLICT, office.clone())
}

/// Ring check of the ring that Add leaves in list one where it refuses the rule.
fn ring_check(refused: Rule, office: &Office) -> Case {
    let mut office = office.clone();
    let length = office.carry(&LIBRARY, Call::Add(refused)).values[0] as usize;
    case(RING, Call::RingCheck(refused, length), DONE, office)
}
