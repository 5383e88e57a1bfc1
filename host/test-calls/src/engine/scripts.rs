//! The script calls over what is lent: start, and one command, read by the independent reader of scripts.

use crate::office::{Office, Place, STEPS};
use super::{done, drop_marks, empty, hold, is_sound, need, room, Outcome, DAMAGED};
use planner::calls::{Record, Rule};
use reader::{
    earliest, is_name, next_command, read, rules_of, Command, Next, Stop, FULL, MARKS, MODE, NAME, NAMES, NAME_BYTES, NOMARK, RULES, SHORT, SYNTAX,
};
use std::collections::HashSet;

fn names_room(office: &Office) -> bool {
    [Place::Names, Place::Lens].iter().all(|place| office.lent(*place) >= place.room())
}

/// The tables are opened with all steps, and the record is emptied.
pub fn start(office: &mut Office) -> Outcome {
    need(room(office) && names_room(office), SHORT)?;
    empty(office, STEPS as u32);
    office.record[1] = Record { names: 0, logic: 0, broken: 0, sat: 0 };
    done(0, 0)
}

/// The declared names, in order. Each length is within its bound.
fn names(office: &Office) -> Vec<Vec<u8>> {
    let name = |number: usize| {
        let from = NAME_BYTES * number;
        office.names.part()[from..from + usize::from(office.lens.part()[number])].to_vec()
    };
    (0..office.record().names as usize).map(name).collect()
}

/// Sound tables of all steps, and a record that is sound beside them.
fn script_sound(office: &Office) -> bool {
    let (counts, record) = (office.counts(), office.record());
    if counts.steps as usize != STEPS || record.names as usize > NAMES || record.logic > 1 || record.sat > 1 {
        return false;
    }
    if office.lens.part()[..record.names as usize].iter().any(|len| usize::from(*len) > NAME_BYTES) || !is_sound(office) {
        return false;
    }
    let names = names(office);
    let different = names.iter().collect::<HashSet<_>>().len() == names.len();
    // The contradictory level is counted from 1.
    let level_open = record.broken == 0 || record.broken - 1 <= counts.marks;
    names.iter().all(|name| is_name(name)) && different && level_open && (record.broken == 0 || record.sat == 0)
}

/// One command: the bytes read and the bytes written.
pub fn command(office: &mut Office, text: &[u8]) -> Outcome {
    need(room(office) && names_room(office) && office.lent(Place::Out) >= Place::Out.room(), SHORT)?;
    need(script_sound(office), DAMAGED)?;
    let (tree, after) = match next_command(text, 0) {
        Next::Command(tree, after) => (tree, after),
        Next::Wrong => return Err(SYNTAX),
    };
    let printed = match read(&tree) {
        Err(Stop::Unsupported) => "unsupported\n".to_string(),
        Err(Stop::Refused(number)) => return Err(number),
        Ok(command) => carry_out(office, &command)?,
    };
    office.out.part_mut()[..printed.len()].copy_from_slice(printed.as_bytes());
    done(after, printed.len())
}

/// What the command prints. Every refusal comes before the first change.
fn carry_out(office: &mut Office, command: &Command) -> Result<String, u32> {
    let record = office.record();
    let allowed = match command {
        Command::SetLogic => record.logic == 0,
        Command::GetValue(_) => record.logic == 1 && record.sat == 1,
        Command::Exit => true,
        _ => record.logic == 1,
    };
    need(allowed, MODE)?;
    let known = names(office);
    let mut sat = 0;
    let mut printed = String::new();
    match command {
        Command::SetLogic => office.record[1].logic = 1,
        Command::Declare(name) => {
            need(!known.contains(name), NAME)?;
            need(known.len() < NAMES, FULL)?;
            let from = NAME_BYTES * known.len();
            office.names.part_mut()[from..from + name.len()].copy_from_slice(name);
            office.lens.part_mut()[known.len()] = name.len() as u8;
            office.record[1].names += 1;
        }
        Command::Assert(term) => {
            let mut rules = Vec::new();
            rules_of(&known, term, false, &mut rules)?;
            need(record.broken != 0 || office.counts().rules as usize + rules.len() <= RULES, FULL)?;
            if record.broken == 0 {
                assert_all(office, &rules);
            }
        }
        Command::Push(more) => {
            need(u64::from(office.counts().marks) + more <= MARKS as u64, FULL)?;
            office.counts[1].marks += *more as u32;
        }
        Command::Pop(fewer) => {
            need(*fewer <= u64::from(office.counts().marks), NOMARK)?;
            drop_marks(office, *fewer as usize);
            if record.broken > office.counts().marks + 1 {
                office.record[1].broken = 0;
            }
        }
        Command::CheckSat => {
            sat = u32::from(record.broken == 0);
            printed.push_str(if sat == 1 { "sat\n" } else { "unsat\n" });
        }
        Command::GetValue(names) => {
            let mut pairs = Vec::new();
            for name in names {
                let step = known.iter().position(|other| other == name).ok_or(NAME)?;
                pairs.push(format!("({} {})", String::from_utf8_lossy(name), office.shelf.days.part()[step]));
            }
            printed = format!("({})\n", pairs.join(" "));
            sat = record.sat;
        }
        Command::Exit => (),
    }
    office.record[1].sat = sat;
    Ok(printed)
}

/// The rules are added from left to right; at the first that has no arrangement with those held, the present level counts as contradictory.
fn assert_all(office: &mut Office, rules: &[reader::Rule]) {
    for rule in rules {
        let mut all = super::rules(office);
        all.push(*rule);
        match earliest(STEPS, all.iter().copied()) {
            Some(days) => hold(office, Rule { first: rule.x as u32, second: rule.y as u32, amount: rule.c as i32 }, &days),
            None => {
                office.record[1].broken = office.counts().marks + 1;
                return;
            }
        }
    }
}
