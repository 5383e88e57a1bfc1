//! From bytes to trees: white space, comments, tokens, brackets.

/// What a token is. A reserved word has the form of a simple symbol.
#[derive(Clone, Copy, PartialEq, Eq, Debug)]
pub enum Kind {
    Numeral,
    Symbol,
    Reserved,
    /// A decimal, a hexadecimal, a binary or a keyword: no command of ours has a place for one.
    Other,
}

/// A command, or a part of one.
#[derive(Clone, Debug)]
pub enum Tree {
    Word(Kind, Vec<u8>),
    List(Vec<Tree>),
}

pub enum Next {
    /// A command, and where the text goes on after its last bracket.
    Command(Tree, usize),
    /// No `(` here, brackets that do not close, a `|` or `"`, or a piece that is no token.
    Wrong,
}

const RESERVED: [&str; 43] = [
    "!", "_", "as", "BINARY", "DECIMAL", "exists", "HEXADECIMAL", "forall", "let", "match", "NUMERAL", "par",
    "STRING", "assert", "check-sat", "check-sat-assuming", "declare-const", "declare-datatype", "declare-datatypes",
    "declare-fun", "declare-sort", "define-fun", "define-fun-rec", "define-funs-rec", "define-sort", "echo", "exit",
    "get-assertions", "get-assignment", "get-info", "get-model", "get-option", "get-proof", "get-unsat-assumptions",
    "get-unsat-core", "get-value", "pop", "push", "reset", "reset-assertions", "set-info", "set-logic", "set-option",
];

fn is_white(byte: u8) -> bool {
    matches!(byte, 9 | 10 | 13 | 32)
}

fn ends_piece(byte: u8) -> bool {
    is_white(byte) || matches!(byte, b'(' | b')' | b';' | b'|' | b'"')
}

/// The first place at or after `at` that is neither white space nor inside a comment.
pub fn skip_blank(text: &[u8], mut at: usize) -> usize {
    while at < text.len() {
        if is_white(text[at]) {
            at += 1;
        } else if text[at] == b';' {
            while at < text.len() && text[at] != 10 && text[at] != 13 {
                at += 1;
            }
        } else {
            break;
        }
    }
    at
}

/// The command that begins at `at`.
pub fn next_command(text: &[u8], at: usize) -> Next {
    if text.get(at) != Some(&b'(') {
        return Next::Wrong;
    }
    match list(text, at + 1) {
        Some((tree, after)) => Next::Command(tree, after),
        None => Next::Wrong,
    }
}

/// The list whose opening bracket stands before `at`, and the place after its closing one. It keeps the lists that are
/// open on a stack of its own: text may nest as deep as it is long.
fn list(text: &[u8], mut at: usize) -> Option<(Tree, usize)> {
    let mut open: Vec<Vec<Tree>> = vec![Vec::new()];
    loop {
        at = skip_blank(text, at);
        match *text.get(at)? {
            b'(' => {
                open.push(Vec::new());
                at += 1;
            }
            b')' => {
                let whole = Tree::List(open.pop()?);
                at += 1;
                match open.last_mut() {
                    Some(around) => around.push(whole),
                    None => return Some((whole, at)),
                }
            }
            b'|' | b'"' => return None,
            _ => {
                let from = at;
                while at < text.len() && !ends_piece(text[at]) {
                    at += 1;
                }
                let word = Tree::Word(kind(&text[from..at])?, text[from..at].to_vec());
                open.last_mut()?.push(word);
            }
        }
    }
}

/// What a piece is, or nothing where it is no token.
pub fn kind(piece: &[u8]) -> Option<Kind> {
    let piece = std::str::from_utf8(piece).ok()?;
    if let Some(digits) = piece.strip_prefix("#x") {
        return some_of(digits, |c| c.is_ascii_hexdigit()).then(|| Kind::Other);
    }
    if let Some(digits) = piece.strip_prefix("#b") {
        return some_of(digits, |c| c == '0' || c == '1').then(|| Kind::Other);
    }
    if let Some(symbol) = piece.strip_prefix(':') {
        return is_symbol(symbol).then(|| Kind::Other);
    }
    if let Some((whole, part)) = piece.split_once('.') {
        if is_numeral(whole) && some_of(part, |c| c.is_ascii_digit()) {
            return Some(Kind::Other);
        }
    }
    if is_numeral(piece) {
        return Some(Kind::Numeral);
    }
    if !is_symbol(piece) {
        return None;
    }
    Some(if RESERVED.contains(&piece) { Kind::Reserved } else { Kind::Symbol })
}

fn some_of(text: &str, good: impl Fn(char) -> bool) -> bool {
    !text.is_empty() && text.chars().all(good)
}

fn is_numeral(text: &str) -> bool {
    some_of(text, |c| c.is_ascii_digit()) && (text == "0" || !text.starts_with('0'))
}

fn is_symbol(text: &str) -> bool {
    some_of(text, |c| c.is_ascii_alphanumeric() || "~!@$%^&*_-+=<>.?/".contains(c))
        && !text.starts_with(|c: char| c.is_ascii_digit())
}

/// The text cut into its words: brackets, comments, runs of white space and pieces, in order and whole. For shortening.
pub fn words(text: &[u8]) -> Vec<&[u8]> {
    let mut cut = Vec::new();
    let mut at = 0;
    while at < text.len() {
        let from = at;
        at += 1;
        if text[from] == b';' {
            while at < text.len() && text[at] != 10 && text[at] != 13 {
                at += 1;
            }
        } else if is_white(text[from]) {
            while at < text.len() && is_white(text[at]) {
                at += 1;
            }
        } else if !ends_piece(text[from]) {
            while at < text.len() && !ends_piece(text[at]) {
                at += 1;
            }
        }
        cut.push(&text[from..at]);
    }
    cut
}
