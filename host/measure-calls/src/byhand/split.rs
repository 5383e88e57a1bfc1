//! Which watched rules hold in every arrangement, and which in none: one spread from each step of a watched rule.

use super::chains::Chains;
use super::spread::Spread;
use planner::bounds::WATCHED;
use planner::calls::Tables;

/// A gain larger than a day and an amount together.
const ASKED: i64 = 1 << 31;

/// Puts the numbers of the watched rules that hold in every arrangement into `all`, of those that hold in none into `none`, and returns how many
/// they are.
pub fn split(mut spread: Spread, t: &Tables, watched: usize, all: &mut [u32], none: &mut [u32]) -> (usize, usize) {
    let (wxs, wys, wcs) = (&t.wxs[..watched], &t.wys[..watched], &t.wcs[..watched]);
    let by_first = Chains::<WATCHED>::of_all(wxs);
    let by_second = Chains::<WATCHED>::of_all(wys);
    let mut always = [false; WATCHED];
    let mut never = [false; WATCHED];
    for (step, &day) in spread.days.iter().enumerate() {
        if by_first.is_empty(step) && by_second.is_empty(step) {
            continue;
        }
        spread.clear();
        spread.ask(step, ASKED);
        spread.run(None);
        let far = i64::from(day) + ASKED;
        let carried = |other: u16| i64::from(spread.days[usize::from(other)]) + spread.gains[usize::from(other)];
        for number in by_first.of(step) {
            always[number] = far - carried(wys[number]) <= i64::from(wcs[number]);
        }
        for number in by_second.of(step) {
            never[number] = carried(wxs[number]) - far > i64::from(wcs[number]);
        }
    }
    (pick(&always[..watched], all), pick(&never[..watched], none))
}

/// Writes the numbers of the true verdicts, rising, and returns how many there are.
fn pick(verdicts: &[bool], list: &mut [u32]) -> usize {
    let mut count = 0;
    for (number, &verdict) in verdicts.iter().enumerate() {
        if verdict {
            list[count] = number as u32;
            count += 1;
        }
    }
    count
}
