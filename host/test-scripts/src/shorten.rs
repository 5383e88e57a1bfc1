//! Makes a failing script short: whole commands go first, then words, then bytes, and the same once more.

use common::shorten;
use reader::words;
use std::cell::Cell;
use std::ops::Range;

/// A script that still fails, and from which no run of commands, words or bytes that was tried can be left out.
pub fn shortest(script: &[u8], fails: &dyn Fn(&[u8]) -> bool) -> Vec<u8> {
    let owned = |parts: Vec<&[u8]>| parts.into_iter().map(|part| part.to_vec()).collect::<Vec<_>>();
    let mut text = script.to_vec();
    for _ in 0..2 {
        text = fewest(commands(&text), fails).concat();
        text = fewest(owned(words(&text)), fails).concat();
        text = fewest(text.iter().map(|byte| vec![*byte]).collect(), fails).concat();
    }
    text
}

/// The text cut after each bracket that closes a command.
fn commands(text: &[u8]) -> Vec<Vec<u8>> {
    let (mut all, mut open) = (vec![Vec::new()], 0i64);
    for word in words(text) {
        open += i64::from(word == b"(") - i64::from(word == b")");
        all.last_mut().expect("one at least").extend_from_slice(word);
        if word == b")" && open <= 0 {
            all.push(Vec::new());
            open = 0;
        }
    }
    all
}

/// The fewest parts found that still fail. It tries at most some thousand times.
fn fewest(parts: Vec<Vec<u8>>, fails: &dyn Fn(&[u8]) -> bool) -> Vec<Vec<u8>> {
    let tries = Cell::new(4000);
    let without = |parts: &[Vec<u8>], run: Range<usize>| {
        tries.set(tries.get() - 1);
        let rest = [&parts[..run.start], &parts[run.end..]].concat();
        fails(&rest.concat()).then(|| rest)
    };
    shorten(parts, 0, without, || tries.get() > 0)
}
