//! From trees to commands. Trees are read from left to right, and the first departure stops the reading: it is the leftmost.

use crate::text::{kind, Kind, Tree};
use crate::{ASKED, DEPTH, NAME_BYTES, SIZE, SYNTAX};

pub type Name = Vec<u8>;

#[derive(Clone, Debug)]
pub enum Command {
    SetLogic,
    Declare(Name),
    Assert(Term),
    Push(u64),
    Pop(u64),
    CheckSat,
    GetValue(Vec<Name>),
    Exit,
}

#[derive(Clone, Debug)]
pub enum Term {
    /// The operator, the two names and the amount.
    Atom(String, Name, Name, i64),
    Not(Box<Term>),
    And(Vec<Term>),
}

/// Why a command is not read to its end.
#[derive(Debug)]
pub enum Stop {
    Unsupported,
    Refused(u32),
}

const WRONG: Stop = Stop::Refused(SYNTAX);
const TOO_MUCH: Stop = Stop::Refused(SIZE);
type Read<T> = Result<T, Stop>;

/// Larger than any number that a command can use, and small enough to be reckoned with.
const HUGE: i64 = 1_000_000_000;

/// Reads one command.
pub fn read(tree: &Tree) -> Read<Command> {
    let mut parts = Parts::of(tree)?;
    let command = match parts.operator()? {
        "set-logic" => {
            parts.word("QF_IDL")?;
            Command::SetLogic
        }
        "declare-fun" => {
            let name = parts.name()?;
            parts.list()?.end()?;
            parts.word("Int")?;
            Command::Declare(name)
        }
        "assert" => Command::Assert(term(parts.next()?, 1, false)?),
        "push" => Command::Push(parts.numeral()? as u64),
        "pop" => Command::Pop(parts.numeral()? as u64),
        "check-sat" => Command::CheckSat,
        "get-value" => Command::GetValue(names(parts.list()?)?),
        "exit" => Command::Exit,
        _ => return Err(Stop::Unsupported),
    };
    parts.end()?;
    Ok(command)
}

/// Whether a word is a name in form.
pub fn is_name(word: &[u8]) -> bool {
    kind(word) == Some(Kind::Symbol) && word.len() <= NAME_BYTES
}

/// One name or more, and no more than may be asked for at once.
fn names(mut parts: Parts) -> Read<Vec<Name>> {
    let mut all = vec![parts.name()?];
    while parts.more() {
        let name = parts.name()?;
        if all.len() == ASKED {
            return Err(TOO_MUCH);
        }
        all.push(name);
    }
    Ok(all)
}

/// A term at a depth, under an odd number of `not` or an even one.
fn term(tree: &Tree, depth: usize, odd: bool) -> Read<Term> {
    if let Tree::Word(kind, word) = tree {
        let ours = matches!(&word[..], b"and" | b"not" | b"<=" | b"<" | b">=" | b">");
        let operator = matches!(kind, Kind::Symbol | Kind::Reserved);
        return Err(if operator && !ours { Stop::Unsupported } else { WRONG });
    }
    if depth > DEPTH {
        return Err(TOO_MUCH);
    }
    let mut parts = Parts::of(tree)?;
    let term = match parts.operator()? {
        "not" => Term::Not(Box::new(term(parts.next()?, depth + 1, !odd)?)),
        "and" if odd => return Err(Stop::Unsupported),
        "and" => {
            let mut all = vec![term(parts.next()?, depth + 1, odd)?, term(parts.next()?, depth + 1, odd)?];
            while parts.more() {
                all.push(term(parts.next()?, depth + 1, odd)?);
            }
            Term::And(all)
        }
        operator @ ("<=" | "<" | ">=" | ">") => {
            let mut difference = parts.list()?;
            difference.word("-")?;
            let (first, second) = (difference.name()?, difference.name()?);
            difference.end()?;
            Term::Atom(operator.to_string(), first, second, parts.amount()?)
        }
        _ => return Err(Stop::Unsupported),
    };
    parts.end()?;
    Ok(term)
}

/// The parts of a list that are still to be read. Each reader takes one part, and is SYNTAX where it is missing or another.
struct Parts<'t>(std::slice::Iter<'t, Tree>);

impl<'t> Parts<'t> {
    fn of(tree: &'t Tree) -> Read<Parts<'t>> {
        match tree {
            Tree::List(parts) => Ok(Parts(parts.iter())),
            Tree::Word(..) => Err(WRONG),
        }
    }

    fn more(&self) -> bool {
        self.0.len() > 0
    }

    fn next(&mut self) -> Read<&'t Tree> {
        self.0.next().ok_or(WRONG)
    }

    fn end(&self) -> Read<()> {
        if self.more() {
            Err(WRONG)
        } else {
            Ok(())
        }
    }

    fn list(&mut self) -> Read<Parts<'t>> {
        Parts::of(self.next()?)
    }

    /// A symbol or a reserved word.
    fn operator(&mut self) -> Read<&'t str> {
        match self.next()? {
            Tree::Word(Kind::Symbol | Kind::Reserved, word) => Ok(std::str::from_utf8(word).expect("tokens are ASCII")),
            _ => Err(WRONG),
        }
    }

    fn word(&mut self, wanted: &str) -> Read<()> {
        match self.next()? {
            Tree::Word(_, word) if word == wanted.as_bytes() => Ok(()),
            _ => Err(WRONG),
        }
    }

    /// A symbol that is not reserved; SIZE where it is too long.
    fn name(&mut self) -> Read<Name> {
        match self.next()? {
            Tree::Word(Kind::Symbol, word) if word.len() > NAME_BYTES => Err(TOO_MUCH),
            Tree::Word(Kind::Symbol, word) => Ok(word.clone()),
            _ => Err(WRONG),
        }
    }

    /// A numeral's value, or `HUGE` where it is larger.
    fn numeral(&mut self) -> Read<i64> {
        match self.next()? {
            Tree::Word(Kind::Numeral, word) if word.len() > 9 => Ok(HUGE),
            Tree::Word(Kind::Numeral, word) => Ok(String::from_utf8_lossy(word).parse().expect("a numeral of nine digits")),
            _ => Err(WRONG),
        }
    }

    /// N or (- N).
    fn amount(&mut self) -> Read<i64> {
        if let Some(Tree::List(_)) = self.0.as_slice().first() {
            let mut inner = self.list()?;
            inner.word("-")?;
            let value = inner.numeral()?;
            inner.end()?;
            return Ok(-value);
        }
        self.numeral()
    }
}
