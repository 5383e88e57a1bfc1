//! Making what fails short.

use std::ops::Range;

/// Leaves out runs of parts, long ones first, as long as what stays still fails and there is patience. `without` gives what stays without a run, where that fails. Runs
/// of more than one part leave the first `kept` parts in their place.
pub fn shorten<P>(mut parts: Vec<P>, kept: usize, mut without: impl FnMut(&[P], Range<usize>) -> Option<Vec<P>>, patient: impl Fn() -> bool) -> Vec<P> {
    let mut run = parts.len() / 2;
    while run > 0 {
        let (mut at, mut any) = (if run > 1 { kept } else { 0 }, false);
        while at < parts.len() && patient() {
            match without(&parts, at..(at + run).min(parts.len())) {
                Some(shorter) => {
                    parts = shorter;
                    any = true;
                }
                None => at += run,
            }
        }
        if !patient() {
            break;
        }
        if !any || run > 1 {
            run /= 2;
        }
    }
    parts
}
