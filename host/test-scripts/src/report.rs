//! Showing what failed.

use crate::shorten::shortest;
use reader::Answer;

/// Whether an answer is the one wanted, and how it differs.
pub fn same(wanted: &Answer, got: &Result<Answer, String>) -> Result<(), String> {
    match got {
        Err(why) => Err(format!("  {}", why)),
        Ok(answer) if answer == wanted => Ok(()),
        Ok(answer) => Err(format!("  wanted {}\n  got    {}", show(wanted), show(answer))),
    }
}

/// Compares an engine with the independent solver over one script; a script on which they differ is shortened.
pub fn agrees(script: &[u8], run: &dyn Fn(&[u8]) -> Result<Answer, String>) -> Result<(), String> {
    let differs = |text: &[u8]| same(&reader::run(text), &run(text)).is_err();
    if !differs(script) {
        return Ok(());
    }
    let short = shortest(script, &differs);
    let how = same(&reader::run(&short), &run(&short)).err().unwrap_or_default();
    Err(format!("  shortened to {} bytes: {}\n{}", short.len(), quote(&short), how))
}

fn show(answer: &Answer) -> String {
    format!("{}, ending with {}", quote(&answer.out), answer.end)
}

/// Bytes as a Rust byte string, cut where it is long.
pub fn quote(bytes: &[u8]) -> String {
    const SHOWN: usize = 600;
    let text: String = bytes.iter().take(SHOWN).flat_map(|byte| std::ascii::escape_default(*byte)).map(char::from).collect();
    if bytes.len() > SHOWN {
        return format!("b\"{}\".. ({} bytes)", text, bytes.len());
    }
    format!("b\"{}\"", text)
}
