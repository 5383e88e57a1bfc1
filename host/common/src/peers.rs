//! Other solvers: a peer is asked all questions in one process, and what it says is compared with what is wanted.

use std::path::Path;
use std::process::Command;

/// What a peer is asked about one script or problem.
pub struct Question {
    /// Its name, which the peer prints before its answers.
    pub name: String,
    /// What the peer reads.
    pub text: Vec<u8>,
    /// What it answers, where it agrees.
    pub wanted: Vec<&'static str>,
    /// What is shown of it, where the peer does not agree.
    pub shown: String,
}

/// Asks a peer all questions, which are written into the file. Gives how many answers agreed, or the first question on which they do not.
pub fn ask(peer: &str, questions: &[Question], file: &Path) -> Result<usize, String> {
    let mut text = Vec::new();
    for question in questions {
        text.extend_from_slice(format!("(reset)\n(echo \"{}\")\n", question.name).as_bytes());
        text.extend_from_slice(&question.text);
    }
    std::fs::write(file, text).map_err(|why| format!("  {} cannot be written: {}", file.display(), why))?;
    let mut command = Command::new(peer);
    if peer == "cvc5" {
        command.args(["--incremental", "--lang", "smt2"]);
    }
    let ended = command.arg(file).output().map_err(|why| format!("  {} cannot be started: {}", peer, why))?;
    let said = String::from_utf8_lossy(&ended.stdout).to_string();
    let mut lines = said.lines().map(|line| line.trim_matches('"')).peekable();
    let mut agreed = 0;
    for (at, question) in questions.iter().enumerate() {
        if lines.next() != Some(&question.name[..]) {
            return Err(format!("  {} did not come to {}; it said at last {:?}", peer, question.name, said.lines().last()));
        }
        let next = questions.get(at + 1).map(|question| &question.name[..]);
        let mut got = Vec::new();
        while let Some(line) = lines.next_if(|line| Some(*line) != next) {
            got.push(line);
        }
        if got != question.wanted {
            return Err(format!("  {}: wanted {:?}\n  {} says {:?}; the question is in {}\n  {}", question.name, question.wanted, peer, got, file.display(), question.shown));
        }
        agreed += got.len();
    }
    Ok(agreed)
}
