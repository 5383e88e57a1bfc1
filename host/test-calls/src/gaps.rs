//! Gap tables by hand: what each call gives and leaves there is written here, and both engines must say the same.

use crate::acts::Act;
use crate::compare::Both;
use crate::engine::{ABSENT, CONFLICT, DAMAGED, STEP, YARD as MORE_STEPS};
use crate::office::{Field, Place, NO_LIMIT, STEPS, YARD};
use crate::sequences::rule;
use crate::tests::Tally;
use reader::{DONE, FULL, NOMARK, RULES, SHORT};

/// No limit.
const N: i64 = NO_LIMIT;

/// A call, its number, and what is wanted beside that.
struct Line {
    act: Act,
    number: u32,
    wanted: Wanted,
}

enum Wanted {
    Nothing,
    /// The cells that are kept, by rows.
    Rows(Vec<Vec<i64>>),
    /// Of each row the last cell that is kept: for many steps.
    Last(Vec<i64>),
    /// What Gap gives: the limit, or none.
    Limit(Option<i64>),
}

use Wanted::{Last, Limit, Nothing, Rows};

fn line(act: Act, number: u32, wanted: Wanted) -> Line {
    Line { act, number, wanted }
}

fn done(act: Act) -> Line {
    line(act, DONE, Nothing)
}

fn add(x: usize, y: usize, c: i64) -> Act {
    Act::Add(rule(x, y, c))
}

fn gap(x: u32, y: u32, limit: Option<i64>) -> Line {
    line(Act::Gap(x, y), DONE, Limit(limit))
}

fn refused(act: Act, number: u32) -> Line {
    line(act, number, Limit(None))
}

/// One test for each case.
pub fn all(tally: &mut Tally) {
    let cases = [
        ("two rules, a third, and back", two_rules()),
        ("what leaves it", what_leaves_it()),
        ("withdrawals", withdrawals()),
        ("ties, self rules and rules of one pair", ties()),
        ("the bounds of one yard", bounds()),
        ("as many days as there can be", farthest()),
        ("every place held", every_place()),
        ("refusals in their order", in_order()),
        ("every cell that is kept", every_cell()),
        ("cells that are not kept", other_cells()),
        ("scripts", scripts()),
    ];
    for (name, lines) in cases {
        tally.count(&format!("gap tables: {}", name), by_hand(&lines));
    }
}

/// Makes the calls by both engines.
fn by_hand(lines: &[Line]) -> Result<(), String> {
    let mut both = Both::new(2);
    for (at, line) in lines.iter().enumerate() {
        let wrong = |how: String| format!("  call {}, {}: {}", at + 1, line.act, how);
        let given = both.make(&line.act).map_err(wrong)?;
        if given.number != line.number {
            return Err(wrong(format!("wanted {}, both gave {:?}", line.number, given)));
        }
        let office = both.office();
        let steps = office.counts().steps as usize;
        let row = |x: usize| office.shelf.gaps.part()[x][..steps].to_vec();
        let good = match &line.wanted {
            Nothing => true,
            Rows(rows) => rows.len() == steps && rows.iter().enumerate().all(|(x, wanted)| row(x) == *wanted),
            Last(cells) => cells.len() == steps && cells.iter().enumerate().all(|(x, wanted)| row(x)[steps - 1] == *wanted),
            Limit(limit) => (given.one, given.two) == limit.map_or((0, 0), |limit| (1, limit)),
        };
        if !good {
            return Err(wrong(format!("both gave {:?} and left {:?}", given, (0..steps.min(YARD)).map(row).collect::<Vec<_>>())));
        }
    }
    Ok(())
}

/// Four steps with the rules 0,1,-2 and 1,2,-3.
fn opened() -> Vec<Line> {
    vec![done(Act::Open(4)), done(add(0, 1, -2)), line(add(1, 2, -3), DONE, Rows(before()))]
}

fn before() -> Vec<Vec<i64>> {
    vec![vec![0, -2, -5, N], vec![N, 0, -3, N], vec![N, N, 0, N], vec![N, N, N, 0]]
}

/// With the rule 2,0,9.
fn after() -> Vec<Vec<i64>> {
    vec![vec![0, -2, -5, N], vec![6, 0, -3, N], vec![9, 7, 0, N], vec![N, N, N, 0]]
}

fn two_rules() -> Vec<Line> {
    let apart = || Rows(vec![vec![0, N, N, N], vec![N, 0, N, N], vec![N, N, 0, N], vec![N, N, N, 0]]);
    vec![
        line(Act::Open(4), DONE, apart()),
        line(add(0, 1, -2), DONE, Rows(vec![vec![0, -2, N, N], vec![N, 0, N, N], vec![N, N, 0, N], vec![N, N, N, 0]])),
        line(add(1, 2, -3), DONE, Rows(before())),
        gap(0, 2, Some(-5)),
        gap(2, 0, None),
        gap(3, 3, Some(0)),
        line(Act::Mark, DONE, Rows(before())),
        line(add(2, 0, 9), DONE, Rows(after())),
        gap(2, 0, Some(9)),
        gap(1, 0, Some(6)),
        gap(0, 3, None),
        line(Act::Back, DONE, Rows(before())),
        gap(2, 0, None),
        line(Act::Open(4), DONE, apart()),
    ]
}

fn what_leaves_it() -> Vec<Line> {
    let mut lines = opened();
    lines.push(line(add(2, 0, 9), DONE, Rows(after())));
    let calls = [
        (Act::Watch(rule(2, 0, 1)), DONE),
        (Act::Trial(rule(2, 0, 6)), DONE),
        (Act::Trial(rule(2, 0, 4)), CONFLICT),
        (add(2, 0, 4), CONFLICT),
        (add(2, 4, 0), STEP),
        (Act::Consequences, DONE),
        (Act::RingCheck(rule(2, 0, 4), vec![3, 0, 1]), DONE),
        (Act::LastDay, DONE),
        (Act::Gap(0, 1), DONE),
        (Act::Mark, DONE),
        (Act::Open(0), STEP),
        (Act::Withdraw(3), ABSENT),
        (Act::Back, DONE),
        (Act::Back, NOMARK),
        // It says no more than the others do.
        (add(2, 0, 10), DONE),
        (add(1, 0, 6), DONE),
        (add(3, 3, 0), DONE),
    ];
    lines.extend(calls.into_iter().map(|(act, number)| line(act, number, Rows(after()))));
    lines
}

fn withdrawals() -> Vec<Line> {
    let mut lines = opened();
    lines.extend([
        line(add(2, 0, 9), DONE, Rows(after())),
        // One more way from 0 to 2, with days to spare.
        line(add(0, 2, -4), DONE, Rows(after())),
        line(Act::Withdraw(0), DONE, Rows(vec![vec![0, N, -4, N], vec![6, 0, -3, N], vec![9, N, 0, N], vec![N, N, N, 0]])),
        line(Act::Withdraw(3), DONE, Rows(vec![vec![0, N, N, N], vec![6, 0, -3, N], vec![9, N, 0, N], vec![N, N, N, 0]])),
        line(Act::Withdraw(1), DONE, Rows(vec![vec![0, N, N, N], vec![N, 0, N, N], vec![9, N, 0, N], vec![N, N, N, 0]])),
        line(add(0, 1, -2), DONE, Rows(vec![vec![0, -2, N, N], vec![N, 0, N, N], vec![9, 7, 0, N], vec![N, N, N, 0]])),
    ]);
    lines
}

/// Two rules of one pair, of which the smaller amount counts; rules that lead round with nothing to spare; a step with itself.
fn ties() -> Vec<Line> {
    vec![
        done(Act::Open(3)),
        done(add(0, 0, 5)),
        done(add(0, 1, 4)),
        line(add(0, 1, -1), DONE, Rows(vec![vec![0, -1, N], vec![N, 0, N], vec![N, N, 0]])),
        line(add(1, 0, 1), DONE, Rows(vec![vec![0, -1, N], vec![1, 0, N], vec![N, N, 0]])),
        line(add(1, 2, 0), DONE, Rows(vec![vec![0, -1, -1], vec![1, 0, 0], vec![N, N, 0]])),
        line(add(2, 2, 0), DONE, Rows(vec![vec![0, -1, -1], vec![1, 0, 0], vec![N, N, 0]])),
        line(add(2, 1, 0), DONE, Rows(vec![vec![0, -1, -1], vec![1, 0, 0], vec![1, 0, 0]])),
        line(add(2, 0, 0), CONFLICT, Rows(vec![vec![0, -1, -1], vec![1, 0, 0], vec![1, 0, 0]])),
        line(Act::Withdraw(2), DONE, Rows(vec![vec![0, 4, 4], vec![1, 0, 0], vec![1, 0, 0]])),
        // Equal rules: one of them is as good as both.
        done(add(0, 1, 4)),
        line(Act::Withdraw(1), DONE, Rows(vec![vec![0, 4, 4], vec![1, 0, 0], vec![1, 0, 0]])),
    ]
}

fn bounds() -> Vec<Line> {
    let last = YARD as u32 - 1;
    let apart = |steps: usize| (0..steps).map(|step| if step == steps - 1 { 0 } else { N }).collect::<Vec<i64>>();
    let mut lines = vec![line(Act::Open(1), DONE, Rows(vec![vec![0]])), gap(0, 0, Some(0)), refused(Act::Gap(0, 1), STEP)];
    lines.extend([line(Act::Open(YARD as u32), DONE, Last(apart(YARD))), gap(last, last, Some(0)), gap(0, last, None), done(add(15, 0, -7)), gap(15, 0, Some(-7))]);
    for past in [YARD as u32, 17, 65_536, u32::MAX] {
        lines.extend([refused(Act::Gap(last, past), STEP), refused(Act::Gap(past, last), STEP)]);
    }
    for steps in [YARD as u32 + 1, 18, STEPS as u32] {
        lines.extend([done(Act::Open(steps)), done(add(0, 1, -2)), refused(Act::Gap(0, 1), MORE_STEPS), refused(Act::Gap(0, steps), MORE_STEPS), refused(Act::Gap(u32::MAX, 0), MORE_STEPS)]);
    }
    // What is not kept stays, and is made anew where it is kept again.
    lines.extend([done(Act::Open(2)), gap(0, 1, None)]);
    lines
}

/// A chain of the smallest amounts there and of the largest ones back.
fn farthest() -> Vec<Line> {
    let mut lines = vec![done(Act::Open(YARD as u32))];
    for step in 1..YARD {
        lines.extend([done(add(step - 1, step, -1_000_000)), done(add(step, step - 1, 1_000_000))]);
    }
    let of_last = (0..YARD as i64).map(|step| (step - 15) * 1_000_000).collect();
    lines.extend([gap(0, 15, Some(-15_000_000)), gap(15, 0, Some(15_000_000)), line(Act::Mark, DONE, Last(of_last))]);
    lines.extend([done(Act::Withdraw(0)), gap(0, 15, None), gap(15, 0, Some(15_000_000)), gap(1, 15, Some(-14_000_000))]);
    lines
}

/// 4,096 rules of one pair: the smallest amount counts, wherever it stands, until it is withdrawn.
fn every_place() -> Vec<Line> {
    let full = |act: Act| line(act, FULL, Nothing);
    vec![
        done(Act::Open(YARD as u32)),
        done(Act::Hold(rule(0, 15, 9), RULES - 2)),
        gap(0, 15, Some(9)),
        done(add(0, 15, 3)),
        done(add(15, 0, -3)),
        gap(0, 15, Some(3)),
        gap(15, 0, Some(-3)),
        full(add(0, 15, 2)),
        full(Act::Trial(rule(0, 15, 2))),
        done(Act::Withdraw(7)),
        gap(0, 15, Some(3)),
        line(add(0, 15, 2), CONFLICT, Nothing),
        gap(0, 15, Some(3)),
        done(Act::Withdraw(4_094)),
        gap(0, 15, Some(9)),
        done(add(0, 15, 4)),
        gap(0, 15, Some(4)),
        done(Act::Withdraw(4_095)),
        gap(15, 0, None),
    ]
}

/// SHORT, then DAMAGED, then YARD, then STEP.
fn in_order() -> Vec<Line> {
    let mut lines = vec![done(Act::Open(YARD as u32 + 1))];
    for place in [Place::Xs, Place::Ys, Place::Cs, Place::Days, Place::Levels, Place::Wxs, Place::Wys, Place::Wcs] {
        let room = place.room();
        lines.extend([done(Act::Lend(place, room - 1)), refused(Act::Gap(99, 99), SHORT), done(Act::SetField(Field::Last, 3)), refused(Act::Gap(99, 99), SHORT)]);
        lines.extend([done(Act::Lend(place, room)), refused(Act::Gap(99, 99), DAMAGED), done(Act::SetField(Field::Last, 0)), refused(Act::Gap(99, 99), MORE_STEPS)]);
    }
    // The lists are not lent to it.
    lines.extend([done(Act::Lend(Place::One, 0)), done(Act::Lend(Place::Two, 0)), done(Act::Open(4)), gap(0, 1, None), refused(Act::Gap(99, 0), STEP)]);
    // A cell that is wrong is kept no more with one step too many, and all of those are on day 0.
    lines.extend([done(Act::Set(Place::Gaps, 1, 0)), refused(Act::Gap(99, 0), DAMAGED), done(Act::SetField(Field::Steps, 17)), refused(Act::Gap(99, 0), MORE_STEPS)]);
    lines
}

/// One cell after the other is not the limit: every call but Open is DAMAGED, and leaves it.
fn every_cell() -> Vec<Line> {
    let mut lines = opened();
    lines.extend([done(Act::Mark), done(add(2, 0, 9)), done(Act::Watch(rule(2, 0, 1)))]);
    let calls = || {
        let all = [Act::Watch(rule(0, 1, 0)), add(0, 1, 0), add(2, 0, 4), Act::Mark, Act::Back, Act::Withdraw(0), Act::Withdraw(9), Act::Trial(rule(0, 1, 0)), Act::Consequences];
        all.into_iter().chain([Act::RingCheck(rule(0, 1, 0), vec![0]), Act::LastDay, Act::Gap(0, 1), Act::Gap(9, 9), add(9, 9, 9)])
    };
    for (x, y) in (0..4).flat_map(|x| (0..4).map(move |y| (x, y))) {
        let right = after()[x][y];
        for wrong in [right.wrapping_add(1), right.wrapping_sub(1), if right == N { 0 } else { N }] {
            lines.push(done(Act::Set(Place::Gaps, YARD * x + y, wrong)));
            let mut rows = after();
            rows[x][y] = wrong;
            lines.extend(calls().map(|act| line(act, DAMAGED, Rows(rows.clone()))));
        }
        lines.push(done(Act::Set(Place::Gaps, YARD * x + y, right)));
        lines.push(line(Act::LastDay, DONE, Rows(after())));
    }
    lines.extend([done(Act::Set(Place::Gaps, 0, 7)), line(Act::Open(1), DONE, Rows(vec![vec![0]]))]);
    lines
}

/// Whatever stands past the steps, every call goes on, and leaves it: both engines are compared there too.
fn other_cells() -> Vec<Line> {
    let mut lines = opened();
    for (x, y) in [(0, 4), (4, 0), (3, 4), (4, 3), (4, 4), (0, 15), (15, 0), (15, 15)] {
        for cell in [0, -1, N, i64::MIN, -2] {
            lines.push(done(Act::Set(Place::Gaps, YARD * x + y, cell)));
            lines.extend([line(Act::Mark, DONE, Rows(before())), line(add(2, 0, 9), DONE, Rows(after())), line(Act::Withdraw(2), DONE, Rows(before()))]);
            lines.extend([gap(0, 2, Some(-5)), line(Act::Back, DONE, Rows(before()))]);
        }
    }
    lines
}

/// A script has more steps than one yard, and what stands in the gap table is nothing to it.
fn scripts() -> Vec<Line> {
    let say = |text: &str| Act::Command(text.into());
    let mut lines = opened();
    lines.push(done(Act::Start));
    for text in ["(set-logic QF_IDL)", "(declare-fun cut () Int)", "(declare-fun dry () Int)", "(assert (>= (- dry cut) 2))", "(check-sat)"] {
        lines.push(done(say(text)));
    }
    lines.extend([refused(Act::Gap(0, 1), MORE_STEPS), done(Act::Set(Place::Gaps, 0, 5)), done(say("(push 1)")), done(add(0, 1, -3)), done(Act::Back), done(say("(check-sat)"))]);
    lines
}
