//! The clock. What is compared is measured in turn, round by round, and the shortest round of each counts: other work on the machine only
//! lengthens one.

use crate::cases::Case;
use crate::office::{Call, Engine, Office, ANY_RING, BY_HAND, LIBRARY};
use std::time::{Duration, Instant};

const ROUNDS: usize = 25;
const ROUND: Duration = Duration::from_millis(2);

/// Nanoseconds for one call of the library, the same by hand, and one plain pass over the rules held; where the call is a conflict, the same by hand with any ring.
#[derive(Clone, Copy)]
pub struct Times {
    pub library: f64,
    pub by_hand: f64,
    pub any_ring: Option<f64>,
    pub plain: f64,
}

/// Measures a case. Before each call the counts, the days, the levels and the gap table are set again, which undoes it: free places, and those past the counts, may hold
/// anything. The time that this takes is measured as well and taken off.
pub fn measure(case: &Case) -> Times {
    let (counts, days, levels, gaps) = (case.office.counts, case.office.days.clone(), case.office.levels.clone(), case.office.gaps.clone());
    let call: Call = case.call;
    let undo = |office: &mut Office| {
        office.counts = counts;
        office.days.copy_from_slice(&days);
        office.levels.copy_from_slice(&levels);
        office.gaps.copy_from_slice(&gaps[..]);
    };
    let by = |engine: &'static Engine| {
        move |office: &mut Office| {
            undo(office);
            office.carry(engine, call).number
        }
    };
    let undone = |office: &mut Office| {
        undo(office);
        office.counts.rules
    };
    let wide = case.office.wide_days();
    let plain = |office: &mut Office| office.plain_pass(&wide);
    let (library, by_hand, any_ring) = (by(&LIBRARY), by(&BY_HAND), by(&ANY_RING));
    let mut works: Vec<Work> = vec![&library, &by_hand, &undone, &plain];
    if case.conflict {
        works.push(&any_ring);
    }
    let times = shortest(&mut case.office.clone(), &works, &undo);
    let undone = times[2];
    Times { library: times[0] - undone, by_hand: times[1] - undone, plain: times[3], any_ring: times.get(4).map(|time| time - undone) }
}

type Work<'a> = &'a dyn Fn(&mut Office) -> u32;

/// Nanoseconds that each work takes, all on the same tables: the shortest round in which this thread never waited for a processor; where there is none, the
/// shortest with the waiting taken off.
fn shortest(office: &mut Office, works: &[Work], undo: &dyn Fn(&mut Office)) -> Vec<f64> {
    let mut often = |work: &Work| {
        let mut times = 1;
        while (0..3).any(|_| round(office, *work, times).took < ROUND) {
            times *= 2;
        }
        times
    };
    let times: Vec<u32> = works.iter().map(|work| often(work)).collect();
    let (mut calm, mut disturbed) = (vec![f64::INFINITY; works.len()], vec![f64::INFINITY; works.len()]);
    for _ in 0..ROUNDS {
        for (number, (work, times)) in works.iter().zip(&times).enumerate() {
            undo(office);
            let round = round(office, *work, *times);
            let kept = if round.waited == Duration::ZERO { &mut calm } else { &mut disturbed };
            kept[number] = kept[number].min(round.took.as_nanos() as f64 / f64::from(*times));
        }
    }
    calm.iter().zip(disturbed).map(|(calm, disturbed)| if calm.is_finite() { *calm } else { disturbed }).collect()
}

/// How long a round worked, and how long it waited meanwhile.
struct Round {
    took: Duration,
    waited: Duration,
}

/// Does the work that many times over. What it gives is used, so that it is done.
#[inline(never)]
fn round(office: &mut Office, work: Work, times: u32) -> Round {
    let began = Instant::now();
    let waited_before = waited();
    let mut sum = 0u32;
    for _ in 0..times {
        sum = sum.wrapping_add(work(office));
    }
    let waited = waited().saturating_sub(waited_before);
    let took = began.elapsed().saturating_sub(waited);
    assert!(sum != u32::MAX, "no work gives this");
    Round { took, waited }
}

/// How long this thread has waited for a processor since it began, as Linux tells; nothing where it does not tell.
fn waited() -> Duration {
    let told = std::fs::read_to_string("/proc/thread-self/schedstat").unwrap_or_default();
    Duration::from_nanos(told.split(' ').nth(1).and_then(|nanoseconds| nanoseconds.parse().ok()).unwrap_or(0))
}
