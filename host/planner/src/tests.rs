//! The worked cases and the refusals, through the planner; scripts by commands and as a whole.

use crate::bounds::{ASKED, LARGEST, LATEST, MARKS, NO_LIMIT, RULES, STEPS, TEXT, WATCHED, YARD_STEPS};
use crate::{next_command, run_script, Moved, Planner, Refusal, Ring, Rule};

fn rule(first: u32, second: u32, amount: i32) -> Rule {
    Rule::new(first, second, amount)
}

/// Four steps with these rules.
fn holding(rules: &[Rule]) -> Planner {
    let mut planner = Planner::open(4).unwrap();
    for rule in rules {
        planner.add(*rule).unwrap();
    }
    planner
}

fn ring_of(refused: Result<Moved, Refusal>) -> Ring {
    match refused {
        Err(Refusal::Conflict(ring)) => ring,
        other => panic!("no conflict: {:?}", other),
    }
}

const CASE_3: [Rule; 2] = [Rule { first: 0, second: 1, amount: -2 }, Rule { first: 1, second: 2, amount: -3 }];

#[test]
fn the_version_of_the_header_is_that_of_the_manifest() {
    assert_eq!(crate::VERSION, env!("CARGO_PKG_VERSION"));
}

#[test]
fn cases_1_to_4_and_7() {
    let mut planner = holding(&[]);
    assert_eq!(planner.days(), [0, 0, 0, 0]);
    assert_eq!((planner.add(CASE_3[0]), planner.days()), (Ok(Moved(1)), &[0, 2, 0, 0][..]));
    assert_eq!((planner.add(CASE_3[1]), planner.days()), (Ok(Moved(1)), &[0, 2, 5, 0][..]));
    assert_eq!((planner.add(rule(2, 0, 5)), planner.days()), (Ok(Moved(0)), &[0, 2, 5, 0][..]));
    assert_eq!(planner.rules().collect::<Vec<_>>(), [(0, CASE_3[0]), (1, CASE_3[1]), (2, rule(2, 0, 5))]);
    assert_eq!(holding(&[rule(2, 0, -7)]).days(), [7, 0, 0, 0]);
}

#[test]
fn cases_5_and_6() {
    let mut planner = holding(&CASE_3);
    let ring = ring_of(planner.add(rule(2, 0, 4)));
    assert_eq!((ring.numbers(), ring.sum()), (&[2, 0, 1][..], -1));
    assert_eq!(ring.rules(), [rule(2, 0, 4), CASE_3[0], CASE_3[1]]);
    assert_eq!(planner.trial(rule(2, 0, 4)), Err(Refusal::Conflict(ring.clone())));
    assert_eq!(planner.ring_check(rule(2, 0, 4), ring.numbers()), Ok(true));
    assert_eq!(planner.ring_check(rule(2, 0, 5), ring.numbers()), Ok(false));
    assert_eq!(planner.ring_check(rule(2, 0, 4), &[2, 0, u32::MAX]), Ok(false));
    assert_eq!(planner.ring_check(rule(2, 0, 4), &[]), Ok(false));
    assert_eq!((planner.days(), planner.counts().rules), (&[0, 2, 5, 0][..], 2));
    let mut planner = holding(&[rule(3, 3, 0)]);
    assert_eq!(ring_of(planner.add(rule(3, 3, -1))).numbers(), [1]);
}

/// The rules held, the rule that is refused, its ring, and another list that Ring check takes for one, where there is one.
type Reason = (&'static [(u32, u32, i32)], (u32, u32, i32), &'static [u32], &'static [u32]);

const REASONS: [Reason; 7] = [
    (&[(0, 1, -1), (1, 2, -1), (2, 3, -1), (0, 3, -3)], (3, 0, 2), &[4, 3], &[4, 0, 1, 2]),
    (&[(0, 1, -2), (0, 1, -2)], (1, 0, 1), &[2, 0], &[2, 1]),
    (&[(0, 1, -5), (0, 1, -9)], (1, 0, 4), &[2, 0], &[2, 1]),
    // 3 0 adds up to 0.
    (&[(0, 1, -1), (0, 2, -1), (2, 1, -1)], (1, 0, 1), &[3, 1, 2], &[]),
    // The smallest first number leads to no ring.
    (&[(0, 1, 0), (0, 2, -3), (1, 3, 0), (2, 3, 0)], (3, 0, 2), &[4, 1, 3], &[]),
    (&[(0, 2, -1), (0, 1, -1), (1, 3, -1), (2, 3, -1)], (3, 0, 1), &[4, 0, 3], &[4, 1, 2]),
    (&[(2, 2, 0), (0, 1, 0), (1, 0, 0)], (0, 0, -1), &[3], &[]),
];

#[test]
fn the_shortest_reason() {
    for (held, (x, y, c), wanted, other) in REASONS {
        let held: Vec<Rule> = held.iter().map(|(x, y, c)| rule(*x, *y, *c)).collect();
        let (mut planner, refused) = (holding(&held), rule(x, y, c));
        let ring = ring_of(planner.add(refused));
        assert_eq!(ring.numbers(), wanted);
        assert_eq!(planner.trial(refused), Err(Refusal::Conflict(ring)));
        assert_eq!(planner.ring_check(refused, wanted), Ok(true));
        assert_eq!(planner.ring_check(refused, other), Ok(!other.is_empty()));
    }
}

#[test]
fn case_8() {
    assert_eq!(holding(&[rule(0, 1, 0), rule(1, 0, 0)]).days(), [0, 0, 0, 0]);
}

#[test]
fn case_9() {
    let mut planner = holding(&CASE_3[..1]);
    planner.mark().unwrap();
    assert_eq!(planner.counts().marks, 1);
    planner.add(CASE_3[1]).unwrap();
    assert_eq!((planner.level(0), planner.level(1)), (Some(0), Some(1)));
    planner.back().unwrap();
    assert_eq!((planner.days(), planner.counts().rules, planner.counts().marks), (&[0, 2, 0, 0][..], 1, 0));
    assert_eq!((planner.rule(0), planner.rule(1)), (Some(CASE_3[0]), None));
    assert_eq!(planner.back(), Err(Refusal::NoMark));
}

#[test]
fn one_rule_is_withdrawn_from_the_middle() {
    let mut planner = holding(&[CASE_3[0], CASE_3[1], rule(2, 3, -1)]);
    assert_eq!((planner.days(), last_day(&planner)), (&[0, 2, 5, 6][..], 6));
    assert_eq!(planner.withdraw(1), Ok(()));
    assert_eq!((planner.days(), last_day(&planner), planner.counts().rules), (&[0, 2, 0, 1][..], 2, 2));
    // The others keep their numbers, and the free one is the next.
    assert_eq!(planner.rules().collect::<Vec<_>>(), [(0, CASE_3[0]), (2, rule(2, 3, -1))]);
    assert_eq!((planner.next_number(), planner.rule(1), planner.level(1)), (1, None, None));
    let ring = ring_of(planner.trial(rule(1, 0, 1)).map(|trial| trial.moved));
    assert_eq!((ring.numbers(), ring.rules()), (&[1, 0][..], &[rule(1, 0, 1), CASE_3[0]][..]));
    assert_eq!(planner.ring_check(rule(1, 0, 1), &[1, 0]), Ok(true));
    assert_eq!(planner.ring_check(rule(1, 0, 1), &[2, 0]), Ok(false));
    assert_eq!(planner.ring_check(rule(1, 0, 1), &[3, 0]), Ok(false));
    assert_eq!(planner.add(rule(3, 0, 5)), Ok(Moved(0)));
    assert_eq!((planner.rule(1), planner.next_number()), (Some(rule(3, 0, 5)), 3));
    assert_eq!(ring_of(planner.add(rule(1, 0, 1))).numbers(), [3, 0]);
    for number in [3, 4_095, 4_096, 65_536, u32::MAX] {
        assert_eq!(planner.withdraw(number), Err(Refusal::Absent));
        assert_eq!((planner.rule(number), planner.level(number)), (None, None));
    }
    assert_eq!((planner.days(), planner.counts().rules), (&[0, 2, 0, 1][..], 3));
}

#[test]
fn a_withdrawn_rule_does_not_come_back() {
    let mut planner = holding(&CASE_3[..1]);
    planner.mark().unwrap();
    planner.add(CASE_3[1]).unwrap();
    planner.withdraw(0).unwrap();
    assert_eq!(planner.days(), [0, 0, 3, 0]);
    // The place of a rule from before the mark, taken by one from after it.
    planner.add(rule(0, 3, -4)).unwrap();
    assert_eq!((planner.rule(0), planner.level(0), planner.level(1)), (Some(rule(0, 3, -4)), Some(1), Some(1)));
    planner.back().unwrap();
    assert_eq!((planner.days(), planner.rules().count(), planner.counts().rules, last_day(&planner)), (&[0, 0, 0, 0][..], 0, 0, 0));
    assert_eq!((planner.withdraw(0), planner.withdraw(1)), (Err(Refusal::Absent), Err(Refusal::Absent)));
}

#[test]
fn a_level_that_is_not_right_is_damaged() {
    let mut planner = holding(&CASE_3);
    planner.mark().unwrap();
    // Rules that the days keep could be held there.
    for (place, cell, sound) in [(0, 0, false), (0, 1, true), (0, 2, true), (0, 3, false), (0, 255, false), (2, 0, true), (2, 1, false), (4_095, 1, false), (4_095, 255, false)] {
        let before = planner.owned.levels[place];
        planner.owned.levels[place] = cell;
        assert_eq!(planner.last_day(), if sound { Ok(5) } else { Err(Refusal::Damaged) }, "level {} at {}", cell, place);
        assert_eq!(planner.withdraw(4_096), Err(if sound { Refusal::Absent } else { Refusal::Damaged }));
        planner.owned.levels[place] = before;
    }
    for (rules, sound) in [(0, false), (1, false), (2, true), (3, false), (4_096, false), (4_097, false), (u32::MAX, false)] {
        planner.counts.rules = rules;
        assert_eq!(planner.last_day().is_ok(), sound);
    }
    // One more that is counted is one more that is held.
    planner.counts.rules = 3;
    planner.owned.levels[7] = 2;
    assert_eq!((planner.last_day(), planner.next_number(), planner.rule(7)), (Ok(5), 2, Some(rule(0, 0, 0))));
}

#[test]
fn case_10() {
    let mut planner = holding(&CASE_3);
    let watched = [rule(0, 2, -5), rule(0, 2, -6), rule(2, 0, 4), rule(2, 0, 5), rule(3, 3, 0), rule(3, 3, -1)];
    for (number, rule) in watched.iter().enumerate() {
        assert_eq!(planner.watch(*rule), Ok(number as u32));
    }
    let told = planner.consequences().unwrap();
    assert_eq!((told.always, told.never), (vec![0, 4], vec![2, 5]));
    assert_eq!(planner.watched().collect::<Vec<_>>(), watched);
}

#[test]
fn cases_11_and_12() {
    assert_eq!(rule(0, 1, -2).negation(), rule(1, 0, 1));
    assert_eq!(rule(0, 1, i32::MIN).negation().negation(), rule(0, 1, i32::MIN));
    let mut planner = holding(&[rule(0, 1, LARGEST), rule(1, 2, -LARGEST)]);
    for amount in [LARGEST + 1, -LARGEST - 1, i32::MAX, i32::MIN] {
        assert_eq!(planner.add(rule(0, 1, amount)), Err(Refusal::Amount));
        assert_eq!(planner.trial(rule(0, 1, amount)), Err(Refusal::Amount));
        assert_eq!(planner.watch(rule(0, 1, amount)), Err(Refusal::Amount));
        assert_eq!(planner.ring_check(rule(0, 1, amount), &[]), Err(Refusal::Amount));
    }
    assert_eq!(planner.add(Rule::at_least(i32::MIN, 0, 1)), Err(Refusal::Amount));
}

#[test]
fn case_13() {
    let mut planner = Planner::open(STEPS as u32).unwrap();
    for step in 0..STEPS as u32 - 1 {
        planner.add(rule(step, step + 1, -LARGEST)).unwrap();
    }
    assert_eq!((planner.days()[STEPS - 1], last_day(&planner)), (LATEST, LATEST));
    let last = STEPS as u32 - 1;
    let longest: Vec<u32> = [last].into_iter().chain(0..last).collect();
    assert_eq!(ring_of(planner.add(rule(last, 0, LARGEST))).numbers(), longest);
    for steps in [0, STEPS as u32 + 1, u32::MAX] {
        assert_eq!(Planner::open(steps).unwrap_err(), Refusal::Step);
    }
}

/// The last day, by the call, where the record says the same.
fn last_day(planner: &Planner) -> u32 {
    let day = planner.last_day().unwrap();
    assert_eq!(planner.counts().last, day);
    day
}

#[test]
fn the_last_day_of_the_cases() {
    let mut planner = holding(&[]);
    assert_eq!(last_day(&planner), 0);
    for (rule, day) in [(CASE_3[0], 2), (CASE_3[1], 5)] {
        planner.add(rule).unwrap();
        assert_eq!(last_day(&planner), day);
    }
    ring_of(planner.add(rule(2, 0, 4)));
    assert_eq!(last_day(&planner), 5);
    // Nor does what a rule would do count, or a watched rule, or a mark.
    assert_eq!(planner.trial(rule(3, 0, -4)).unwrap().days, [4, 6, 9, 0]);
    planner.watch(rule(0, 2, -9)).unwrap();
    planner.mark().unwrap();
    assert_eq!(last_day(&planner), 5);
    planner.add(rule(3, 0, -4)).unwrap();
    assert_eq!(last_day(&planner), 9);
    planner.back().unwrap();
    assert_eq!(last_day(&planner), 5);
    assert_eq!(last_day(&holding(&[rule(2, 0, -7)])), 7);
    let mut planner = holding(&CASE_3[..1]);
    planner.mark().unwrap();
    planner.add(CASE_3[1]).unwrap();
    planner.back().unwrap();
    assert_eq!(last_day(&planner), 2);
}

#[test]
fn a_wrong_last_day_is_damaged() {
    let mut fresh = holding(&[]);
    let mut planner = holding(&CASE_3);
    for day in [0, 1, 2, 4, 5, 6, LATEST, u32::MAX] {
        fresh.counts.last = day;
        assert_eq!(fresh.last_day(), if day == 0 { Ok(0) } else { Err(Refusal::Damaged) });
        planner.counts.last = day;
        assert_eq!(planner.last_day(), if day == 5 { Ok(5) } else { Err(Refusal::Damaged) });
        assert_eq!(planner.trial(rule(2, 0, 5)).is_ok(), day == 5);
    }
}

const N: Option<i64> = None;

/// The limits of all pairs, by rows.
fn limits(planner: &Planner) -> Vec<Vec<Option<i64>>> {
    let steps = planner.counts().steps;
    (0..steps).map(|x| (0..steps).map(|y| planner.gap(x, y).unwrap()).collect()).collect()
}

#[test]
fn the_gap_table_of_the_cases() {
    let mut planner = holding(&CASE_3);
    let before = vec![vec![Some(0), Some(-2), Some(-5), N], vec![N, Some(0), Some(-3), N], vec![N, N, Some(0), N], vec![N, N, N, Some(0)]];
    assert_eq!(limits(&planner), before);
    planner.mark().unwrap();
    planner.add(rule(2, 0, 9)).unwrap();
    let after = vec![vec![Some(0), Some(-2), Some(-5), N], vec![Some(6), Some(0), Some(-3), N], vec![Some(9), Some(7), Some(0), N], vec![N, N, N, Some(0)]];
    assert_eq!(limits(&planner), after);
    // What is refused, or only asked, leaves it.
    ring_of(planner.add(rule(2, 0, 4)));
    assert_eq!((planner.trial(rule(2, 0, 5)).is_ok(), planner.add(rule(2, 4, 0)), planner.watch(rule(2, 0, 5))), (true, Err(Refusal::Step), Ok(0)));
    assert_eq!((planner.consequences().is_ok(), limits(&planner)), (true, after.clone()));
    planner.back().unwrap();
    assert_eq!(limits(&planner), before);
    // The other way to lose a rule.
    planner.add(rule(2, 0, 9)).unwrap();
    assert_eq!(limits(&planner), after);
    planner.withdraw(2).unwrap();
    assert_eq!(limits(&planner), before);
    planner.withdraw(0).unwrap();
    assert_eq!(limits(&planner)[0], [Some(0), N, N, N]);
}

#[test]
fn the_bounds_of_one_yard() {
    let last = YARD_STEPS as u32 - 1;
    let mut planner = Planner::open(YARD_STEPS as u32).unwrap();
    for step in 0..last {
        planner.add(rule(step, step + 1, -LARGEST)).unwrap();
        planner.add(rule(step + 1, step, LARGEST)).unwrap();
    }
    let far = i64::from(last) * i64::from(LARGEST);
    assert_eq!((planner.gap(0, last), planner.gap(last, 0), planner.gap(last, last)), (Ok(Some(-far)), Ok(Some(far)), Ok(Some(0))));
    for step in [YARD_STEPS as u32, 65_536, u32::MAX] {
        assert_eq!((planner.gap(last, step), planner.gap(step, last)), (Err(Refusal::Step), Err(Refusal::Step)));
    }
    // With one step more it is not kept, whatever the steps asked for.
    let mut wider = Planner::open(YARD_STEPS as u32 + 1).unwrap();
    let cells = wider.owned.gaps.clone();
    wider.add(rule(0, 1, -2)).unwrap();
    assert_eq!((wider.gap(0, 1), wider.gap(0, 17), wider.owned.gaps), (Err(Refusal::Yard), Err(Refusal::Yard), cells));
    assert_eq!(Planner::start().unwrap().gap(0, 1), Err(Refusal::Yard));
    assert_eq!(Planner::open(1).unwrap().gap(0, 0), Ok(Some(0)));
}

#[test]
fn a_cell_that_is_not_the_limit_is_damaged() {
    let mut planner = holding(&CASE_3);
    planner.mark().unwrap();
    for (x, y) in (0..YARD_STEPS).flat_map(|x| (0..YARD_STEPS).map(move |y| (x, y))) {
        let before = planner.owned.gaps[x][y];
        for cell in [before.wrapping_add(1), before.wrapping_sub(1), 0, NO_LIMIT, i64::MIN] {
            planner.owned.gaps[x][y] = cell;
            let sound = cell == before || x >= 4 || y >= 4;
            assert_eq!(planner.last_day(), if sound { Ok(5) } else { Err(Refusal::Damaged) }, "{} at {}, {}", cell, x, y);
            assert_eq!(planner.gap(0, 4), Err(if sound { Refusal::Step } else { Refusal::Damaged }));
            assert_eq!(planner.owned.gaps[x][y], cell);
        }
        planner.owned.gaps[x][y] = before;
    }
    assert_eq!(planner.back(), Ok(()));
}

#[test]
fn step_numbers_below_the_count() {
    let mut planner = holding(&CASE_3);
    for rule in [rule(4, 0, 0), rule(0, 4, 0), rule(65_535, 65_535, LARGEST + 1), rule(65_536, 0, 0), rule(1, 65_537, 0), rule(u32::MAX, 1, LARGEST + 1)] {
        assert_eq!(planner.add(rule), Err(Refusal::Step));
        assert_eq!(planner.trial(rule), Err(Refusal::Step));
        assert_eq!(planner.watch(rule), Err(Refusal::Step));
        assert_eq!(planner.ring_check(rule, &[]), Err(Refusal::Step));
    }
}

#[test]
fn full_tables() {
    let mut planner = holding(&[]);
    for _ in 0..MARKS {
        planner.mark().unwrap();
    }
    assert_eq!(planner.mark(), Err(Refusal::Full));
    for _ in 0..RULES {
        planner.add(rule(0, 1, -2)).unwrap();
    }
    assert_eq!(planner.add(rule(0, 1, -2)), Err(Refusal::Full));
    assert_eq!(planner.trial(rule(0, 1, -2)), Err(Refusal::Full));
    assert_eq!(planner.ring_check(rule(1, 0, 1), &[4096, 7]), Ok(true));
    assert_eq!((planner.next_number(), planner.withdraw(4_096)), (4_096, Err(Refusal::Absent)));
    // One goes, and there is a place again, in the middle.
    assert_eq!((planner.withdraw(1_234), planner.withdraw(1_234)), (Ok(()), Err(Refusal::Absent)));
    assert_eq!((planner.next_number(), planner.counts().rules), (1_234, 4_095));
    assert_eq!(planner.ring_check(rule(1, 0, 1), &[4096, 7]), Ok(false));
    assert_eq!(ring_of(planner.add(rule(1, 0, 1))).numbers(), [1_234, 0]);
    assert_eq!(planner.trial(rule(1, 0, 2)).unwrap().moved, Moved(0));
    assert_eq!((planner.add(rule(1, 0, 2)), planner.rule(1_234)), (Ok(Moved(0)), Some(rule(1, 0, 2))));
    assert_eq!(planner.add(rule(0, 1, -2)), Err(Refusal::Full));
    for _ in 0..WATCHED {
        planner.watch(rule(0, 1, -2)).unwrap();
    }
    assert_eq!(planner.watch(rule(0, 1, -2)), Err(Refusal::Full));
    assert_eq!(planner.consequences().unwrap().always.len(), WATCHED);
    planner.back().unwrap();
    assert_eq!((planner.rules().count(), planner.days()), (0, &[0, 0, 0, 0][..]));
}

#[test]
fn names_and_numbers_of_refusals() {
    let ring = ring_of(holding(&[]).add(rule(0, 0, -1)));
    let all = [
        (Refusal::Short, "SHORT"),
        (Refusal::Damaged, "DAMAGED"),
        (Refusal::Step, "STEP"),
        (Refusal::Amount, "AMOUNT"),
        (Refusal::Full, "FULL"),
        (Refusal::Conflict(ring.clone()), "CONFLICT"),
        (Refusal::NoMark, "NOMARK"),
        (Refusal::Syntax, "SYNTAX"),
        (Refusal::Mode, "MODE"),
        (Refusal::Name, "NAME"),
        (Refusal::Size, "SIZE"),
        (Refusal::Absent, "ABSENT"),
        (Refusal::Yard, "YARD"),
    ];
    for (number, (refusal, name)) in (1..=12).chain([15]).zip(&all) {
        assert_eq!((refusal.number(), refusal.name()), (number, *name));
        assert_eq!(Refusal::judge(number, || ring.clone()).as_ref(), Err(refusal));
        assert!(refusal.to_string().starts_with(&format!("{} ({}): ", name, number)));
    }
    assert_eq!(Refusal::judge(0, || ring.clone()), Ok(()));
}

const SCRIPT: &[u8] = b"(set-logic QF_IDL)
(declare-fun cut () Int)
(declare-fun dry () Int)
(assert (<= (- cut dry) (- 2)))
(check-sat)
(get-value (cut dry))
(push 1)
(assert (<= (- dry cut) 1))
(check-sat)
(pop 1)
(check-sat)
";

/// All that the commands of a text print, one after the other.
fn by_commands(text: &[u8]) -> Result<Vec<u8>, Refusal> {
    let (mut planner, mut printed, mut rest) = (Planner::start()?, Vec::new(), next_command(text));
    while !rest.is_empty() {
        let answer = planner.command(rest)?;
        printed.extend(answer.printed);
        rest = next_command(&rest[answer.read..]);
    }
    Ok(printed)
}

#[test]
fn a_script_by_commands_and_as_a_whole() {
    let wanted = b"sat\n((cut 0) (dry 2))\nunsat\nsat\n";
    assert_eq!(by_commands(SCRIPT), Ok(wanted.to_vec()));
    assert_eq!(run_script(SCRIPT), (wanted.to_vec(), None));
    let examples: [(&[u8], &[u8]); 3] = [
        (include_bytes!("../../../examples/season.smt2"), include_bytes!("../../../examples/season.out")),
        (include_bytes!("../../../examples/deadline.smt2"), include_bytes!("../../../examples/deadline.out")),
        (include_bytes!("../../../examples/contradiction.smt2"), include_bytes!("../../../examples/contradiction.out")),
    ];
    for (text, wanted) in examples {
        assert_eq!(run_script(text), (wanted.to_vec(), None));
        assert_eq!(by_commands(text), Ok(wanted.to_vec()));
    }
}

#[test]
fn refused_commands() {
    let mut planner = Planner::start().unwrap();
    assert_eq!(planner.command(b"(check-sat)"), Err(Refusal::Mode));
    planner.command(b"(set-logic QF_IDL)").unwrap();
    planner.command(b"(declare-fun x () Int)").unwrap();
    let long_name = format!("(declare-fun {} () Int)", "x".repeat(33));
    let some: [(&[u8], Refusal); 10] = [
        (b"(set-logic QF_IDL)", Refusal::Mode),
        (b" (check-sat)", Refusal::Syntax),
        (b"(check-sat", Refusal::Syntax),
        (b"", Refusal::Syntax),
        (b"(pop 1)", Refusal::NoMark),
        (b"(push 65)", Refusal::Full),
        (b"(assert (<= (- x y) 1))", Refusal::Name),
        (b"(declare-fun x () Int)", Refusal::Name),
        (b"(assert (<= (- x x) 1000001))", Refusal::Amount),
        (long_name.as_bytes(), Refusal::Size),
    ];
    for (text, refusal) in some {
        assert_eq!(planner.command(text), Err(refusal));
    }
    assert_eq!(run_script(&vec![b' '; 65_537]), (b"(error \"11\")\n".to_vec(), Some(Refusal::Size)));
    assert_eq!(run_script(&vec![b' '; 65_536]), (Vec::new(), None));
    assert_eq!(holding(&[]).command(b"(exit)"), Err(Refusal::Damaged));
    // 256 steps, which were all that there could be before, are sound for the other calls.
    let mut fewer = Planner::open(256).unwrap();
    assert_eq!((fewer.add(rule(0, 255, -2)), fewer.command(b"(exit)")), (Ok(Moved(1)), Err(Refusal::Damaged)));
}

#[test]
fn commands_and_the_other_calls_on_the_same_tables() {
    let mut planner = Planner::open(STEPS as u32).unwrap();
    for text in [&b"(set-logic QF_IDL)"[..], b"(declare-fun cut () Int)", b"(declare-fun dry () Int)", b"(push 1)", b"(assert (>= (- dry cut) 2))"] {
        assert_eq!(planner.command(text).unwrap().read, text.len());
    }
    assert_eq!((planner.counts().marks, planner.level(0), planner.rules().collect::<Vec<_>>()), (1, Some(1), vec![(0, rule(0, 1, -2))]));
    assert_eq!(last_day(&planner), 2);
    planner.add(rule(0, 1, -3)).unwrap();
    assert_eq!(last_day(&planner), 3);
    planner.command(b"(check-sat)").unwrap();
    assert_eq!(planner.command(b"(get-value (dry))").unwrap().printed, b"((dry 3))\n");
    planner.command(b"(assert (< (- dry cut) 3))").unwrap();
    assert_eq!((planner.record().broken, last_day(&planner)), (2, 3));
    assert_eq!(planner.command(b"(check-sat)").unwrap().printed, b"unsat\n");
    // Back knows nothing of the record.
    let mut other = planner.clone();
    other.back().unwrap();
    assert_eq!(other.command(b"(check-sat)"), Err(Refusal::Damaged));
    planner.command(b"(pop 1)").unwrap();
    assert_eq!(planner.command(b"(check-sat)").unwrap().printed, b"sat\n");
    assert_eq!((planner.days()[1], last_day(&planner)), (0, 0));
    // A step without a name counts too, and a wrong last day damages a command's tables.
    planner.add(rule(0, STEPS as u32 - 1, -7)).unwrap();
    assert_eq!(last_day(&planner), 7);
    planner.counts.last = 6;
    assert_eq!(planner.command(b"(check-sat)"), Err(Refusal::Damaged));
}

#[test]
fn withdrawals_between_commands() {
    let mut planner = Planner::start().unwrap();
    let say = |planner: &mut Planner, text: &str| planner.command(text.as_bytes()).map(|answer| String::from_utf8(answer.printed).unwrap());
    for text in ["(set-logic QF_IDL)", "(declare-fun cut () Int)", "(declare-fun dry () Int)", "(assert (and (>= (- dry cut) 2) (>= (- dry cut) 3)))", "(check-sat)"] {
        say(&mut planner, text).unwrap();
    }
    // A sat still counts, and the days are those of the rest.
    planner.withdraw(1).unwrap();
    assert_eq!(say(&mut planner, "(get-value (dry))").unwrap(), "((dry 2))\n");
    // The rules of a term go to the lowest free places.
    say(&mut planner, "(push 1)").unwrap();
    planner.add(rule(0, 1, 5)).unwrap();
    planner.withdraw(0).unwrap();
    say(&mut planner, "(assert (and (>= (- dry cut) 4) (<= (- dry cut) 9)))").unwrap();
    assert_eq!(planner.rules().collect::<Vec<_>>(), [(0, rule(0, 1, -4)), (1, rule(0, 1, 5)), (2, rule(1, 0, 9))]);
    assert_eq!([0, 1, 2, 3].map(|number| planner.level(number)), [Some(1), Some(1), Some(1), None]);
    // A contradictory level stays so without the rule that it came from, until it is popped.
    say(&mut planner, "(push 1)").unwrap();
    say(&mut planner, "(assert (<= (- dry cut) 3))").unwrap();
    planner.withdraw(0).unwrap();
    assert_eq!(say(&mut planner, "(check-sat)").unwrap(), "unsat\n");
    say(&mut planner, "(assert (<= (- dry cut) 3))").unwrap();
    assert_eq!(planner.counts().rules, 2);
    say(&mut planner, "(pop 1)").unwrap();
    assert_eq!(say(&mut planner, "(check-sat)").unwrap(), "sat\n");
    assert_eq!(say(&mut planner, "(get-value (dry))").unwrap(), "((dry 0))\n");
    say(&mut planner, "(pop 1)").unwrap();
    assert_eq!((planner.rules().count(), planner.counts().rules, planner.next_number()), (0, 0, 0));
}

/// The longest answers that a text can have: a name of one byte on a late day, as often as a script has room for. The latest day of all needs a name for every
/// step; the first of nine digits leaves more room.
#[test]
fn room_for_any_answer() {
    let letter = |k: usize| char::from(b"ABCDEFGHIJKLMNOPQRSTUVWXYZabcdef"[k % 32]);
    for last in [STEPS - 1, 100] {
        let name = |k: usize| if k == last { "x".to_string() } else { [letter(k / 32), letter(k)].iter().collect() };
        let mut text = b"(set-logic QF_IDL)".to_vec();
        (0..=last).for_each(|k| text.extend(format!("(declare-fun {} () Int)", name(k)).bytes()));
        (0..last).for_each(|k| text.extend(format!("(assert (<= (- {} {}) (- {})))", name(k), name(k + 1), LARGEST).bytes()));
        text.extend(b"(check-sat)");
        let asked = format!("(get-value ({}x))", "x ".repeat(ASKED - 1));
        let times = (TEXT - text.len()) / asked.len();
        text.extend(asked.repeat(times).bytes());
        let pair = format!("(x {}) ", last as u64 * LARGEST as u64);
        let (printed, refusal) = run_script(&text);
        assert_eq!((printed.len(), refusal), (4 + times * (ASKED * pair.len() + 2), None));
    }
}

#[test]
fn the_text_of_the_next_command() {
    let some: [(&[u8], &[u8]); 6] =
        [(b"", b""), (b"(a)(b)", b"(a)(b)"), (b" \t\r\n(a)", b"(a)"), (b";(x)\r(a)", b"(a)"), (b"; ; x\n;;\n  x", b"x"), (b";", b"")];
    for (text, wanted) in some {
        assert_eq!(next_command(text), wanted);
    }
}
