//! What is compared: things that run scripts. The program, as a process, is here; the exported entry is in `entry.rs`.

use reader::Answer;
use std::io::Write;
use std::process::{Command, Stdio};

/// A thing that runs scripts. The program tells by its status whether a refusal ended it, and not the number: its answer has the one of its last line.
pub trait Engine {
    fn name(&self) -> &'static str;
    fn run(&self, script: &[u8]) -> Result<Answer, String>;
}

/// The program, by the words of its command line.
pub struct Program {
    pub words: Vec<String>,
    /// Bytes handed over at a time.
    pub chunk: usize,
}

impl Engine for Program {
    fn name(&self) -> &'static str {
        "program"
    }

    fn run(&self, script: &[u8]) -> Result<Answer, String> {
        let mut child = Command::new(&self.words[0])
            .args(&self.words[1..])
            .stdin(Stdio::piped())
            .stdout(Stdio::piped())
            .stderr(Stdio::piped())
            .spawn()
            .map_err(|why| format!("{} cannot be started: {}", self.words[0], why))?;
        let mut input = child.stdin.take().ok_or("no standard input")?;
        let (text, chunk) = (script.to_vec(), self.chunk);
        // A program that has its answer may leave the rest unread.
        let writer = std::thread::spawn(move || text.chunks(chunk).all(|part| input.write_all(part).is_ok()));
        let ended = child.wait_with_output().map_err(|why| why.to_string())?;
        let _ = writer.join();
        let end = last_error(&ended.stdout);
        let status = if end == reader::DONE { 0 } else { 1 };
        if ended.status.code() != Some(status) || !ended.stderr.is_empty() {
            return Err(format!("the program ended with {}, not {}, and said {:?}", ended.status, status, String::from_utf8_lossy(&ended.stderr)));
        }
        Ok(Answer { out: ended.stdout, end })
    }
}

/// The number in the last line, where that is an error, else 0.
pub fn last_error(out: &[u8]) -> u32 {
    let text = String::from_utf8_lossy(out);
    let last = text.lines().last().unwrap_or("");
    let number = last.strip_prefix("(error \"").and_then(|rest| rest.strip_suffix("\")"));
    number.and_then(|digits| digits.parse().ok()).unwrap_or(0)
}
