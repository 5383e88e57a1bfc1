//! Withdrawals by hand: what each call gives and leaves is written here, and both engines must say the same.

use crate::acts::Act;
use crate::compare::Both;
use crate::engine::{ABSENT, CONFLICT, DAMAGED};
use crate::office::{Field, Place};
use crate::sequences::rule;
use crate::tests::Tally;
use reader::{DONE, FULL, RULES, SHORT};

/// A call, its number, and what is wanted of it beside that.
struct Line {
    act: Act,
    number: u32,
    wanted: Vec<Wanted>,
}

enum Wanted {
    /// The days of all steps, and the last of them as the last day.
    Days(Vec<u32>),
    /// The first levels, as many as are given; the sum of all that are not 0 is the count.
    Levels(Vec<u8>),
    /// The number of the next rule.
    Next(u32),
    /// The ring, after a conflict at Add or Trial.
    Ring(Vec<u32>),
    /// The first value given.
    Value(u64),
    /// The two lists of Consequences.
    Lists(Vec<u32>, Vec<u32>),
    /// What a command prints.
    Printed(&'static str),
}

use Wanted::{Days, Levels, Lists, Next, Printed, Ring, Value};

fn line(act: Act, number: u32, wanted: Vec<Wanted>) -> Line {
    Line { act, number, wanted }
}

fn done(act: Act) -> Line {
    line(act, DONE, Vec::new())
}

fn add(x: usize, y: usize, c: i64) -> Act {
    Act::Add(rule(x, y, c))
}

fn say(text: &str) -> Act {
    Act::Command(text.into())
}

/// One test for each case.
pub fn all(tally: &mut Tally) {
    for (name, lines) in cases() {
        tally.count(&format!("withdrawals: {}", name), by_hand(&lines));
    }
}

fn cases() -> Vec<(&'static str, Vec<Line>)> {
    vec![
        ("from the middle", from_the_middle()),
        ("no way back to it", no_way_back()),
        ("no rule is held there", absent()),
        ("every place", every_place()),
        ("refusals in their order", in_order()),
        ("the days of the rest", days_of_the_rest()),
        ("levels", levels()),
        ("what stands at a free place", free_places()),
        ("consequences", consequences()),
        ("a contradictory level, and a sat", in_scripts()),
        ("terms on free places", terms()),
    ]
}

/// Makes the calls by both engines.
fn by_hand(lines: &[Line]) -> Result<(), String> {
    let mut both = Both::new(1);
    for (at, line) in lines.iter().enumerate() {
        let wrong = |how: String| format!("  call {}, {}: {}", at + 1, line.act, how);
        let given = both.make(&line.act).map_err(wrong)?;
        if given.number != line.number {
            return Err(wrong(format!("wanted {}, both gave {:?}", line.number, given)));
        }
        let office = both.office();
        let counts = office.counts();
        for wanted in &line.wanted {
            let (good, got) = match wanted {
                Days(days) => {
                    let got = &office.shelf.days.part()[..counts.steps as usize];
                    (got == &days[..] && days.iter().max() == Some(&counts.last), format!("{:?}, {:?}", got, counts))
                }
                Levels(levels) => {
                    let got = &office.shelf.levels.part()[..RULES];
                    let held = got.iter().filter(|level| **level != 0).count();
                    (got[..levels.len()] == levels[..] && held == counts.rules as usize, format!("{:?}, and {} are held", &got[..levels.len()], held))
                }
                Next(number) => (office.next_number() == *number, office.next_number().to_string()),
                Ring(ring) => {
                    let list = if matches!(line.act, Act::Add(_)) { &office.one } else { &office.two };
                    let got = &list.part()[..given.one as usize];
                    (given.number == CONFLICT && got == &ring[..], format!("{:?}", got))
                }
                Value(value) => (given.one == *value, format!("{:?}", given)),
                Lists(one, two) => {
                    let got = (&office.one.part()[..given.one as usize], &office.two.part()[..given.two as usize]);
                    (got == (&one[..], &two[..]), format!("{:?}", got))
                }
                Printed(text) => {
                    let got = String::from_utf8_lossy(&office.out.part()[..given.two as usize]).to_string();
                    (got == *text, got)
                }
            };
            if !good {
                return Err(wrong(format!("both gave {}", got)));
            }
        }
    }
    Ok(())
}

/// The others keep their numbers, and the free one is the next.
fn from_the_middle() -> Vec<Line> {
    vec![
        done(Act::Open(4)),
        done(add(0, 1, -2)),
        done(add(1, 2, -3)),
        line(add(2, 3, -1), DONE, vec![Days(vec![0, 2, 5, 6]), Next(3)]),
        line(Act::Withdraw(1), DONE, vec![Days(vec![0, 2, 0, 1]), Levels(vec![1, 0, 1, 0]), Next(1), Value(0)]),
        line(Act::Trial(rule(1, 0, 1)), CONFLICT, vec![Ring(vec![1, 0])]),
        line(Act::RingCheck(rule(1, 0, 1), vec![1, 0]), DONE, vec![Value(1)]),
        line(Act::RingCheck(rule(1, 0, 1), vec![2, 0]), DONE, vec![Value(0)]),
        line(Act::RingCheck(rule(1, 0, 1), vec![3, 0]), DONE, vec![Value(0)]),
        line(add(3, 0, 5), DONE, vec![Days(vec![0, 2, 0, 1]), Levels(vec![1, 1, 1, 0]), Next(3), Value(0)]),
        line(Act::Trial(rule(1, 0, 1)), CONFLICT, vec![Ring(vec![3, 0])]),
        line(add(1, 0, 1), CONFLICT, vec![Ring(vec![3, 0])]),
        line(Act::Withdraw(3), ABSENT, vec![Value(0)]),
        line(Act::Withdraw(4_096), ABSENT, vec![Days(vec![0, 2, 0, 1]), Levels(vec![1, 1, 1, 0])]),
        // What still stands at a free place is in no ring.
        line(Act::RingCheck(rule(3, 2, 0), vec![3, 2]), DONE, vec![Value(1)]),
        done(Act::Withdraw(0)),
        line(Act::Withdraw(2), DONE, vec![Days(vec![0, 0, 0, 0]), Levels(vec![0, 1, 0, 0]), Next(0)]),
        line(Act::RingCheck(rule(3, 2, 0), vec![0, 2]), DONE, vec![Value(0)]),
        line(Act::Trial(rule(3, 2, 0)), DONE, Vec::new()),
        line(add(2, 3, -1), DONE, vec![Levels(vec![1, 1, 0, 0]), Next(2)]),
        line(Act::RingCheck(rule(3, 2, 0), vec![2, 0]), DONE, vec![Value(1)]),
        line(add(3, 2, 0), CONFLICT, vec![Ring(vec![2, 0])]),
    ]
}

/// Back drops what was added after the mark, wherever it stands, and brings nothing.
fn no_way_back() -> Vec<Line> {
    vec![
        done(Act::Open(4)),
        done(add(0, 1, -2)),
        done(Act::Mark),
        line(add(1, 2, -3), DONE, vec![Levels(vec![1, 2, 0])]),
        line(Act::Withdraw(0), DONE, vec![Days(vec![0, 0, 3, 0])]),
        line(add(0, 3, -4), DONE, vec![Levels(vec![2, 2, 0]), Days(vec![0, 0, 3, 4])]),
        line(Act::Back, DONE, vec![Levels(vec![0, 0, 0]), Days(vec![0, 0, 0, 0]), Next(0)]),
        line(Act::Withdraw(0), ABSENT, Vec::new()),
        line(Act::Withdraw(1), ABSENT, Vec::new()),
    ]
}

fn absent() -> Vec<Line> {
    let none = |numbers: &[u32]| numbers.iter().map(|number| line(Act::Withdraw(*number), ABSENT, vec![Value(0)])).collect::<Vec<Line>>();
    let mut lines = vec![done(Act::Open(4))];
    lines.extend(none(&[0, 1, 4_095, 4_096, 65_536, u32::MAX]));
    lines.push(done(add(0, 1, -2)));
    // A number that would be 0, were it cut to 16 bits; and room beyond, which nobody reads.
    lines.extend(none(&[1, 4_095, 4_096, 65_536, 1 << 31, u32::MAX]));
    lines.push(done(Act::Set(Place::Levels, 4_096, 1)));
    lines.extend(none(&[4_096]));
    lines.push(line(Act::Withdraw(0), DONE, vec![Days(vec![0, 0, 0, 0])]));
    lines.extend(none(&[0]));
    lines.extend([Act::Mark, add(0, 1, -2), Act::Back].map(done));
    lines.extend(none(&[0, 1]));
    lines.extend([add(0, 1, -2), Act::Open(4)].map(done));
    lines.extend(none(&[0]));
    lines
}

/// 4,096 rules are held, one goes, and another takes its place.
fn every_place() -> Vec<Line> {
    let full = |act: Act| line(act, FULL, vec![Value(0)]);
    let mut lines = vec![done(Act::Open(3)), done(add(0, 1, -2)), line(Act::Hold(rule(0, 1, -1), RULES - 1), DONE, vec![Next(4_096)])];
    for number in [0, 4_095, 1_234] {
        lines.push(full(add(0, 0, 0)));
        lines.push(full(Act::Trial(rule(0, 0, 0))));
        lines.push(line(Act::RingCheck(rule(1, 0, 0), vec![4_096, 7]), DONE, vec![Value(1)]));
        lines.push(line(Act::Withdraw(4_096), ABSENT, Vec::new()));
        let days = if number == 0 { vec![0, 1, 0] } else { vec![0, 2, 0] };
        lines.push(line(Act::Withdraw(number), DONE, vec![Next(number), Days(days)]));
        lines.push(line(Act::Withdraw(number), ABSENT, vec![Next(number)]));
        lines.push(line(Act::RingCheck(rule(1, 0, 0), vec![4_096, 7]), DONE, vec![Value(0)]));
        lines.push(line(Act::RingCheck(rule(1, 0, 0), vec![number, 7]), DONE, vec![Value(1)]));
        lines.push(line(add(1, 0, 0), CONFLICT, vec![Ring(vec![number, if number == 0 { 1 } else { 0 }])]));
        lines.push(line(add(0, 1, -2), DONE, vec![Next(4_096), Days(vec![0, 2, 0])]));
    }
    lines.push(full(add(0, 0, 0)));
    lines
}

/// SHORT, then DAMAGED, then ABSENT.
fn in_order() -> Vec<Line> {
    let mut lines = vec![done(Act::Open(4)), done(add(0, 1, -2))];
    for place in [Place::Xs, Place::Ys, Place::Cs, Place::Days, Place::Levels, Place::Wxs, Place::Wys, Place::Wcs] {
        let room = place.room();
        lines.extend([done(Act::Lend(place, room - 1)), line(Act::Withdraw(0), SHORT, Vec::new()), line(Act::Withdraw(4_096), SHORT, Vec::new())]);
        lines.extend([done(Act::SetField(Field::Last, 3)), line(Act::Withdraw(0), SHORT, Vec::new())]);
        lines.extend([done(Act::Lend(place, room)), line(Act::Withdraw(0), DAMAGED, Vec::new()), line(Act::Withdraw(4_096), DAMAGED, Vec::new())]);
        lines.extend([done(Act::SetField(Field::Last, 2)), line(Act::Withdraw(4_096), ABSENT, Vec::new())]);
    }
    // The lists are not lent to it.
    lines.extend([done(Act::Lend(Place::One, 0)), done(Act::Lend(Place::Two, 0))]);
    lines.push(line(Act::Withdraw(0), DONE, vec![Days(vec![0, 0, 0, 0])]));
    lines
}

/// The earliest plan, also where steps hold each other up, or two rules ask for the same.
fn days_of_the_rest() -> Vec<Line> {
    vec![
        done(Act::Open(5)),
        done(add(0, 1, -2)),
        done(add(1, 2, 0)),
        line(add(2, 1, 0), DONE, vec![Days(vec![0, 2, 2, 0, 0])]),
        line(Act::Withdraw(0), DONE, vec![Days(vec![0, 0, 0, 0, 0])]),
        // A rule with days to spare, and one of two with none.
        done(add(0, 3, -7)),
        done(add(0, 4, -3)),
        done(add(4, 3, -4)),
        line(add(3, 0, 9), DONE, vec![Levels(vec![1, 1, 1, 1, 1, 1]), Days(vec![0, 0, 0, 7, 3])]),
        line(Act::Withdraw(5), DONE, vec![Days(vec![0, 0, 0, 7, 3])]),
        line(Act::Withdraw(0), DONE, vec![Days(vec![0, 0, 0, 7, 3])]),
        line(Act::Withdraw(4), DONE, vec![Days(vec![0, 0, 0, 0, 3])]),
        // Steps later than all that follow from them.
        done(add(3, 0, -5)),
        line(Act::LastDay, DONE, vec![Days(vec![5, 0, 0, 0, 8]), Value(8)]),
        line(Act::Withdraw(3), DONE, vec![Days(vec![5, 0, 0, 0, 0])]),
        line(Act::Withdraw(0), DONE, vec![Days(vec![0, 0, 0, 0, 0]), Levels(vec![0, 1, 1, 0])]),
    ]
}

/// Rules of several levels, withdrawn and added again at another one.
fn levels() -> Vec<Line> {
    vec![
        done(Act::Open(4)),
        done(add(0, 1, -1)),
        done(Act::Mark),
        done(add(0, 2, -2)),
        done(Act::Mark),
        line(add(0, 3, -3), DONE, vec![Levels(vec![1, 2, 3, 0])]),
        // The same rule, of a deeper level now: it goes with that.
        line(Act::Withdraw(0), DONE, vec![Days(vec![0, 0, 2, 3])]),
        line(add(0, 1, -1), DONE, vec![Levels(vec![3, 2, 3, 0])]),
        line(Act::Back, DONE, vec![Levels(vec![0, 2, 0]), Days(vec![0, 0, 2, 0])]),
        done(Act::Mark),
        done(Act::Mark),
        line(add(0, 3, -9), DONE, vec![Levels(vec![4, 2, 0])]),
        line(Act::Withdraw(1), DONE, vec![Levels(vec![4, 0])]),
        line(Act::Back, DONE, vec![Levels(vec![0, 0]), Days(vec![0, 0, 0, 0])]),
        line(add(0, 1, -4), DONE, vec![Levels(vec![3, 0])]),
        line(Act::Back, DONE, vec![Levels(vec![0])]),
        line(Act::Back, DONE, vec![Levels(vec![0]), Next(0)]),
        line(Act::Back, 7, Vec::new()),
    ]
}

/// A free place may have anything, and what was withdrawn stays there until it is taken.
fn free_places() -> Vec<Line> {
    let odd = [(Place::Xs, 65_535), (Place::Ys, 65_535), (Place::Cs, i64::from(i32::MIN))];
    let mut lines = vec![done(Act::Open(4)), done(add(0, 1, -2)), done(add(1, 2, -3)), done(Act::Withdraw(0))];
    lines.extend(odd.map(|(place, number)| done(Act::Set(place, 0, number))));
    lines.push(line(Act::LastDay, DONE, vec![Days(vec![0, 0, 3, 0])]));
    lines.push(line(Act::Trial(rule(2, 1, 2)), CONFLICT, vec![Ring(vec![0, 1])]));
    lines.push(line(Act::RingCheck(rule(2, 1, 2), vec![0, 1, 0]), DONE, vec![Value(0)]));
    lines.push(line(add(0, 1, -2), DONE, vec![Days(vec![0, 2, 5, 0]), Levels(vec![1, 1, 0])]));
    // One that counts as held and is not within bounds; then one that is, and is not counted.
    lines.extend(odd.map(|(place, number)| done(Act::Set(place, 2, number))));
    lines.extend([done(Act::Set(Place::Levels, 2, 1)), line(Act::Withdraw(0), DAMAGED, Vec::new())]);
    lines.extend([done(Act::SetField(Field::Rules, 3)), line(Act::Withdraw(0), DAMAGED, Vec::new())]);
    lines.extend([Place::Xs, Place::Ys, Place::Cs].map(|place| done(Act::Set(place, 2, 0))));
    lines.push(line(Act::LastDay, DONE, vec![Levels(vec![1, 1, 1, 0])]));
    lines.extend([done(Act::SetField(Field::Rules, 2)), line(Act::Withdraw(0), DAMAGED, Vec::new())]);
    lines.extend([done(Act::SetField(Field::Rules, 4)), line(Act::Withdraw(0), DAMAGED, Vec::new())]);
    lines.extend([done(Act::SetField(Field::Rules, 3)), done(Act::Set(Place::Levels, 2, 2)), line(Act::Withdraw(0), DAMAGED, Vec::new())]);
    lines.extend([done(Act::Set(Place::Levels, 2, 255)), line(Act::Withdraw(2), DAMAGED, Vec::new())]);
    lines.extend([done(Act::Set(Place::Levels, 2, 1)), line(Act::Withdraw(0), DONE, vec![Days(vec![0, 0, 3, 0]), Levels(vec![0, 1, 1, 0])])]);
    lines
}

fn consequences() -> Vec<Line> {
    vec![
        done(Act::Open(4)),
        done(add(0, 1, -2)),
        done(add(1, 2, -3)),
        done(add(0, 2, -4)),
        done(Act::Watch(rule(0, 2, -5))),
        done(Act::Watch(rule(0, 2, -4))),
        done(Act::Watch(rule(2, 0, 3))),
        done(Act::Watch(rule(2, 0, 4))),
        line(Act::Consequences, DONE, vec![Lists(vec![0, 1], vec![2, 3])]),
        done(Act::Withdraw(0)),
        line(Act::Consequences, DONE, vec![Lists(vec![1], vec![2])]),
        done(Act::Withdraw(2)),
        line(Act::Consequences, DONE, vec![Lists(vec![], vec![])]),
        done(add(0, 1, -2)),
        line(Act::Consequences, DONE, vec![Lists(vec![0, 1], vec![2, 3])]),
    ]
}

/// Withdraw is not lent the record.
fn in_scripts() -> Vec<Line> {
    let mut lines = vec![done(Act::Start)];
    lines.extend(["(set-logic QF_IDL)", "(declare-fun cut () Int)", "(declare-fun dry () Int)", "(assert (>= (- dry cut) 2))", "(push 1)"].map(|text| done(say(text))));
    lines.extend([
        line(say("(check-sat)"), DONE, vec![Printed("sat\n")]),
        line(say("(get-value (dry))"), DONE, vec![Printed("((dry 2))\n")]),
        done(Act::Withdraw(0)),
        line(say("(get-value (dry))"), DONE, vec![Printed("((dry 0))\n")]),
        done(say("(assert (and (>= (- dry cut) 3) (<= (- dry cut) 2) (<= (- dry cut) 9)))")),
        line(say("(check-sat)"), DONE, vec![Printed("unsat\n"), Levels(vec![2, 0])]),
        done(Act::Withdraw(0)),
        line(say("(check-sat)"), DONE, vec![Printed("unsat\n"), Levels(vec![0])]),
        line(say("(assert (<= (- dry cut) 9))"), DONE, vec![Levels(vec![0])]),
        line(say("(get-value (dry))"), 9, Vec::new()),
        line(say("(pop 1)"), DONE, vec![Levels(vec![0])]),
        line(say("(check-sat)"), DONE, vec![Printed("sat\n")]),
        line(say("(get-value (dry))"), DONE, vec![Printed("((dry 0))\n")]),
    ]);
    lines
}

/// A term's rules go to the lowest free places one after the other; FULL is for the whole term.
fn terms() -> Vec<Line> {
    let mut lines = vec![done(Act::Start)];
    lines.extend(["(set-logic QF_IDL)", "(declare-fun cut () Int)", "(declare-fun dry () Int)"].map(|text| done(say(text))));
    let three = || say("(assert (and (>= (- dry cut) 2) (>= (- dry cut) 3) (<= (- dry cut) 9)))");
    lines.extend([
        line(Act::Hold(rule(0, 0, 0), RULES - 1), DONE, vec![Next(4_095)]),
        done(say("(push 2)")),
        line(three(), FULL, Vec::new()),
        done(Act::Withdraw(5)),
        line(three(), FULL, vec![Next(5)]),
        done(Act::Withdraw(2)),
        line(three(), DONE, vec![Levels(vec![1, 1, 3, 1, 1, 3, 1]), Next(4_096)]),
        line(Act::RingCheck(rule(1, 0, 2), vec![4_096, 5]), DONE, vec![Value(1)]),
        line(Act::RingCheck(rule(1, 0, 2), vec![4_096, 2]), DONE, vec![Value(0)]),
        line(say("(assert (<= (- cut dry) 0))"), FULL, Vec::new()),
        done(Act::Withdraw(4_095)),
        line(say("(assert (<= (- cut dry) 0))"), DONE, vec![Next(4_096)]),
        line(say("(pop 1)"), DONE, vec![Levels(vec![1, 1, 0, 1, 1, 0, 1]), Next(2)]),
        line(three(), DONE, vec![Levels(vec![1, 1, 2, 1, 1, 2, 1]), Next(4_096)]),
        done(Act::Withdraw(0)),
        line(say("(pop 1)"), DONE, vec![Levels(vec![0, 1, 0, 1, 1, 0, 1]), Next(0)]),
    ]);
    lines
}
