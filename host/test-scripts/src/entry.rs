//! The exported entry, in this process.

use crate::engines::Engine;
use planner::calls;
use reader::{Answer, LENT};

/// The exported entry.
pub struct Entry;

impl Entry {
    /// Runs a script with `room` bytes for its answers. An error where it wrote past what it says.
    pub fn run_within(&self, script: &[u8], room: usize) -> Result<Answer, String> {
        // The room stands in the middle of a larger list, so that a byte written beside it is seen.
        const BESIDE: usize = 64;
        const KEPT: u8 = 0xA5;
        let mut out = vec![KEPT; room + 2 * BESIDE];
        let mut written = usize::MAX;
        let end = calls::run_script(script, &mut out[BESIDE..BESIDE + room], &mut written);
        if written > room {
            return Err(format!("it says {} bytes written, of {} lent", written, room));
        }
        let (first, last) = (BESIDE, BESIDE + written);
        let kept = |part: &[u8]| part.iter().all(|byte| *byte == KEPT);
        if !kept(&out[..first]) || !kept(&out[last..]) {
            return Err(format!("it wrote beside the {} bytes that it says", written));
        }
        Ok(Answer { out: out[first..last].to_vec(), end })
    }
}

impl Engine for Entry {
    fn name(&self) -> &'static str {
        "entry"
    }

    fn run(&self, script: &[u8]) -> Result<Answer, String> {
        // Room for any answers: `x ` in a `get-value` prints `(x 1023000000) `, fifteen bytes for two, and nothing prints more.
        self.run_within(script, 8 * script.len() + 2 * LENT)
    }
}
