//! z3 and cvc5: the same scripts give the same sequence of `sat` and `unsat`, and no plan has an earlier day.

use crate::report::quote;
use common::generate;
use common::peers::Question;
use reader::{next_command, Answer, Command, Next};

/// The question for a script, or nothing where a peer cannot read it as we do: a refusal or `unsupported`, a name declared above
/// level 0 (which the peer forgets at the pop) or one that may mean something to the peer, a CR that ends a comment.
pub fn question(name: String, script: &[u8], run: &dyn Fn(&[u8]) -> Result<Answer, String>) -> Option<Question> {
    let (commands, names) = peer_text(script)?;
    let (answer, state) = reader::run_to_state(script);
    if answer.end != reader::DONE || answer.out.windows(4).any(|word| word == b"unsu") {
        return None;
    }
    let mut wanted: Vec<&'static str> = verdicts(&answer.out);
    let mut text = commands.clone();
    if state.plan().is_some() {
        // Where no days are printed, days that no peer takes for a plan.
        let days = days(&commands, &names, run).unwrap_or_else(|| vec![-1; names.len()]);
        wanted.extend(earliest_questions(&names, &days, &mut text));
    }
    Some(Question { name, text, wanted, shown: format!("script {}", quote(script)) })
}

fn verdicts(out: &[u8]) -> Vec<&'static str> {
    let text = String::from_utf8_lossy(out);
    text.lines().filter_map(|line| ["sat", "unsat"].into_iter().find(|word| *word == line)).collect()
}

/// The commands as they stand in the script up to `exit`, without `get-value`, and the declared names.
fn peer_text(script: &[u8]) -> Option<(Vec<u8>, Vec<String>)> {
    let (mut text, mut names, mut level) = (Vec::new(), Vec::new(), 0);
    let mut at = 0;
    loop {
        at = reader::skip_blank(script, at);
        if at == script.len() {
            return Some((text, names));
        }
        let (tree, after) = match next_command(script, at) {
            Next::Command(tree, after) => (tree, after),
            Next::Wrong => return None,
        };
        match reader::read(&tree).ok()? {
            Command::Exit => return Some((text, names)),
            Command::GetValue(_) => (),
            command => {
                match command {
                    Command::Push(more) => level += more,
                    Command::Pop(fewer) => level = u64::checked_sub(level, fewer)?,
                    Command::Declare(name) if level == 0 => names.push(plain(name)?),
                    Command::Declare(_) => return None,
                    _ => (),
                }
                let part = &script[at..after];
                if part.contains(&b'\r') && part.contains(&b';') {
                    return None;
                }
                text.extend_from_slice(part);
                text.push(b'\n');
            }
        }
        at = after;
    }
}

/// A name that means nothing to any peer.
fn plain(name: Vec<u8>) -> Option<String> {
    let name = String::from_utf8(name).ok()?;
    let two_letters = name.len() == 2 && name.starts_with(|c: char| c.is_ascii_uppercase()) && name.ends_with(|c: char| c.is_ascii_alphabetic());
    let known = generate::STEPS.contains(&&name[..]) || name.starts_with("field") || two_letters || ["x", "y", "z"].contains(&&name[..]);
    known.then(|| name)
}

/// The days that the engine under test prints at the end of these commands, where they have a plan.
fn days(commands: &[u8], names: &[String], run: &dyn Fn(&[u8]) -> Result<Answer, String>) -> Option<Vec<i64>> {
    if names.is_empty() {
        return Some(Vec::new());
    }
    let lists: Vec<String> = names.chunks(reader::ASKED).map(|some| format!("(get-value ({}))", some.join(" "))).collect();
    let answer = run(&[commands, b"(check-sat)", lists.concat().as_bytes()].concat()).ok()?;
    let text = String::from_utf8_lossy(&answer.out).to_string();
    let lines: Vec<&str> = text.lines().collect();
    let last = &lines[lines.len().checked_sub(lists.len())?..];
    let pairs = last.iter().flat_map(|line| line.trim_matches(|c| c == '(' || c == ')').split(") ("));
    let days: Option<Vec<i64>> = pairs.map(|pair| pair.rsplit(' ').next()?.parse().ok()).collect();
    days.filter(|days| days.len() == names.len())
}

/// Adds two questions: whether the days are a plan, and whether some plan has one of them earlier. A further step is day 0.
fn earliest_questions(names: &[String], days: &[i64], text: &mut Vec<u8>) -> Vec<&'static str> {
    let atom = |operator: &str, name: &str, day: i64| format!("({} (- {} day0) {})", operator, name, day);
    let mut say = |line: String| text.extend_from_slice((line + "\n").as_bytes());
    say("(push 1)(declare-fun day0 () Int)(push 1)".to_string());
    for (name, day) in names.iter().zip(days) {
        say(format!("(assert {})(assert {})", atom("<=", name, *day), atom(">=", name, *day)));
    }
    say("(check-sat)(pop 1)".to_string());
    for name in names {
        say(format!("(assert {})", atom(">=", name, 0)));
    }
    let earlier: Vec<String> = names.iter().zip(days).filter(|(_, day)| **day > 0).map(|(name, day)| atom("<", name, *day)).collect();
    if earlier.is_empty() {
        say("(pop 1)".to_string());
        return vec!["sat"];
    }
    say(format!("(assert (or false {}))(check-sat)(pop 1)", earlier.join(" ")));
    vec!["sat", "unsat"]
}
