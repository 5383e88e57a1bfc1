//! A second reader and solver for scripts, independent of the proved one: it builds trees, keeps every asserted rule with
//! the level it came at, and plans afresh at each question. It is meant to be obviously right, and slow.
#![forbid(unsafe_code)]

mod form;
mod plan;
mod state;
mod text;

pub use form::{is_name, read, Command, Name, Stop, Term};
pub use plan::{earliest, Rule};
pub use state::{rules_of, State};
pub use text::{next_command, skip_blank, words, Next, Tree};

/// The numbers given back.
pub const DONE: u32 = 0;
pub const SHORT: u32 = 1;
pub const AMOUNT: u32 = 4;
pub const FULL: u32 = 5;
pub const NOMARK: u32 = 7;
pub const SYNTAX: u32 = 8;
pub const MODE: u32 = 9;
pub const NAME: u32 = 10;
pub const SIZE: u32 = 11;

/// The bounds.
pub const SCRIPT_BYTES: usize = 65_536;
pub const NAME_BYTES: usize = 32;
pub const DEPTH: usize = 16;
/// As many names may be declared as there are steps.
pub const NAMES: usize = 1_024;
/// The names of one `get-value`.
pub const ASKED: usize = 256;
pub const RULES: usize = 4_096;
pub const MARKS: usize = 64;
pub const LARGEST: i64 = 1_000_000;
pub const LENT: usize = 16_384;

/// What a script printed, and the number it ended with.
#[derive(Clone, PartialEq, Eq, Debug)]
pub struct Answer {
    pub out: Vec<u8>,
    pub end: u32,
}

/// Runs a whole script with any room for its answers.
pub fn run(script: &[u8]) -> Answer {
    run_within(script, usize::MAX)
}

/// Runs a whole script with `room` bytes for its answers: SHORT, and nothing more printed, where fewer than `LENT` are left
/// before a command.
pub fn run_within(script: &[u8], room: usize) -> Answer {
    let mut state = State::new();
    let (out, end) = steps(script, room, &mut state);
    Answer { out, end }
}

/// Runs a script and hands back the state it ended in, with its answers.
pub fn run_to_state(script: &[u8]) -> (Answer, State) {
    let mut state = State::new();
    let (out, end) = steps(script, usize::MAX, &mut state);
    (Answer { out, end }, state)
}

fn steps(script: &[u8], room: usize, state: &mut State) -> (Vec<u8>, u32) {
    let mut out = Vec::new();
    if script.len() > SCRIPT_BYTES {
        return refuse(out, SIZE);
    }
    let mut at = 0;
    loop {
        at = text::skip_blank(script, at);
        if at == script.len() {
            return (out, DONE);
        }
        if room - out.len() < LENT {
            return (out, SHORT);
        }
        let (tree, after) = match next_command(script, at) {
            Next::Command(tree, after) => (tree, after),
            Next::Wrong => return refuse(out, SYNTAX),
        };
        match form::read(&tree) {
            Err(form::Stop::Unsupported) => out.extend_from_slice(b"unsupported\n"),
            Err(form::Stop::Refused(number)) => return refuse(out, number),
            Ok(Command::Exit) => return (out, DONE),
            Ok(command) => match state.carry_out(&command) {
                Ok(line) => out.extend_from_slice(line.as_bytes()),
                Err(number) => return refuse(out, number),
            },
        }
        at = after;
    }
}

fn refuse(mut out: Vec<u8>, number: u32) -> (Vec<u8>, u32) {
    out.extend_from_slice(format!("(error \"{}\")\n", number).as_bytes());
    (out, number)
}
