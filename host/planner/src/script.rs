//! Scripts: one command at a time over a planner's tables, and whole ones.

use crate::bounds::{NAME_BYTES, ROOM, TEXT};
use crate::calls::{self, Record};
use crate::planner::Planner;
use crate::refusal::Refusal;

/// What a command that was carried out gives.
#[derive(Clone, Debug, PartialEq, Eq)]
pub struct Answer {
    /// How many bytes of the text the command has, from its opening bracket to the closing one.
    pub read: usize,
    /// What it prints: nothing, or one line with its line feed.
    pub printed: Vec<u8>,
}

impl Planner {
    /// The start of a script: 1,024 steps, no rules, marks or watched rules, and no names declared. Steps are numbered as their names are declared.
    pub fn start() -> Result<Planner, Refusal> {
        let mut planner = Planner::blank();
        let (mut tables, names) = planner.owned.lend();
        let number = calls::start(&mut planner.counts, &mut planner.record, &mut tables, &names);
        Refusal::judge_plain(number)?;
        Ok(planner)
    }

    /// Carries out the one command that the text begins with, from its opening bracket on; [`next_command`] finds it.
    ///
    /// A conflict at `assert` is no refusal: the level counts as contradictory, and `check-sat` prints `unsat`, until it is popped. Nor does `exit` end anything
    /// here; that is for whoever hands over the commands.
    ///
    /// Refused with [`Refusal::Syntax`], [`Refusal::Size`], [`Refusal::Mode`], [`Refusal::Name`], [`Refusal::Amount`], [`Refusal::Full`] or [`Refusal::NoMark`],
    /// in the order that `docs/SCRIPTS.md` gives. A planner that was opened with fewer than 1,024 steps has no script: [`Refusal::Damaged`]. So it is
    /// after [`back`](Planner::back) has dropped the mark of the level that counts as contradictory; `pop` keeps account of that. Nor does
    /// [`withdraw`](Planner::withdraw) know of the script: the level still counts as contradictory when a rule of it is withdrawn, and a `sat` still counts.
    ///
    /// ```
    /// use planner::{next_command, Planner, Rule};
    ///
    /// let text = b"(set-logic QF_IDL)
    ///     (declare-fun cut () Int) (declare-fun dry () Int)
    ///     (assert (<= (- cut dry) (- 2)))   ; drying takes two days
    ///     (check-sat) (get-value (cut dry))";
    /// let mut planner = Planner::start()?;
    /// let mut printed = Vec::new();
    /// let mut rest = next_command(text);
    /// while !rest.is_empty() {
    ///     let answer = planner.command(rest)?;
    ///     printed.extend(answer.printed);
    ///     rest = next_command(&rest[answer.read..]);
    /// }
    /// assert_eq!(printed, b"sat\n((cut 0) (dry 2))\n");
    /// assert_eq!(planner.names().collect::<Vec<_>>(), ["cut", "dry"]);
    /// // The other calls go on over the same tables.
    /// planner.add(Rule::new(0, 1, -5))?;
    /// assert_eq!(planner.command(b"(check-sat)")?.printed, b"sat\n");
    /// assert_eq!(planner.command(b"(get-value (dry))")?.printed, b"((dry 5))\n");
    /// # Ok::<(), planner::Refusal>(())
    /// ```
    pub fn command(&mut self, text: &[u8]) -> Result<Answer, Refusal> {
        let mut out = vec![0; ROOM];
        let (mut read, mut written) = (0, 0);
        let (mut tables, mut names) = self.owned.lend();
        let number = calls::command(text, &mut self.counts, &mut self.record, &mut tables, &mut names, &mut out, &mut read, &mut written);
        Refusal::judge_plain(number)?;
        out.truncate(written);
        Ok(Answer { read, printed: out })
    }

    /// The names that commands have declared; the name number k is step k.
    pub fn names(&self) -> impl ExactSizeIterator<Item = &str> + '_ {
        (0..self.record.names as usize).map(move |k| {
            let bytes = &self.owned.names[k * NAME_BYTES..][..usize::from(self.owned.lens[k])];
            std::str::from_utf8(bytes).expect("a name is a simple symbol, of ASCII characters")
        })
    }

    /// The script's record.
    pub fn record(&self) -> Record {
        self.record
    }
}

/// The text from its first command on: without the white space and comments that it begins with.
///
/// ```
/// use planner::next_command;
///
/// assert_eq!(next_command(b" ; the season\n\t(check-sat)"), b"(check-sat)");
/// assert!(next_command(b"; nothing follows").is_empty());
/// ```
pub fn next_command(text: &[u8]) -> &[u8] {
    let mut comment = false;
    let stands = |byte: &u8| {
        let ends = matches!(byte, b'\n' | b'\r');
        comment = if comment { !ends } else { *byte == b';' };
        !(comment || ends || matches!(byte, b' ' | b'\t'))
    };
    let from = text.iter().position(stands).unwrap_or(text.len());
    &text[from..]
}

/// Runs a whole script over tables of its own. Gives all that it prints, and the refusal that ended it, whose line `(error "N")` is the last one printed.
///
/// ```
/// use planner::{run_script, Refusal};
///
/// let (printed, refusal) = run_script(b"(set-logic QF_IDL) (check-sat) (pop 1)");
/// assert_eq!(printed, b"sat\n(error \"7\")\n");
/// assert_eq!(refusal, Some(Refusal::NoMark));
/// ```
pub fn run_script(text: &[u8]) -> (Vec<u8>, Option<Refusal>) {
    // Room for any answers: `x ` in a `get-value` prints `(x 1023000000) `, fifteen bytes for two, and nothing prints more. A longer script prints one line.
    let mut out = vec![0; 8 * text.len().min(TEXT) + 2 * ROOM];
    let mut written = 0;
    let number = calls::run_script(text, &mut out, &mut written);
    out.truncate(written);
    (out, Refusal::judge_plain(number).err())
}
