//! Pairs of sequences that end with the same question: as many steps, the same rules held, in whatever order and however often, and the same watched rules. However they
//! went, the library shows the same screen after both: the days, the last day, the two lists of Consequences, and the gap table. And at every Add and `assert` that is carried
//! out: no day is earlier after it, no number is gone from a list, and no limit is larger.

use crate::acts::Act;
use crate::compare::by_library;
use crate::engine;
use crate::office::{Office, NO_LIMIT, STEPS};
use crate::second::Second;
use crate::sequences::{Kind, Writer};
use crate::tests::Tally;
use common::{shorten, Random};
use planner::calls::Rule;
use reader::DONE;
use std::collections::{BTreeMap, HashSet};
use std::ops::Range;
use std::time::{Duration, Instant};

/// At most so long a failing pair is made short.
const PATIENCE: Duration = Duration::from_secs(30);

/// Failing pairs beyond these are counted and not shortened.
const SHOWN: usize = 3;

/// What tables ask.
#[derive(Clone, PartialEq, Eq)]
pub struct Question {
    pub steps: u32,
    pub rules: HashSet<Rule>,
    pub watched: Vec<Rule>,
}

impl Question {
    fn of(office: &Office) -> Question {
        let counts = office.counts();
        Question {
            steps: counts.steps,
            rules: office.numbers().into_iter().map(|number| office.rule(number as usize)).collect(),
            watched: (0..counts.watched).map(|number| office.watched_rule(number as usize)).collect(),
        }
    }
}

/// What the library shows of them.
#[derive(Debug, PartialEq, Eq)]
struct Screen {
    days: Vec<u32>,
    stored: u32,
    told: u32,
    lists: [Vec<u32>; 2],
    /// The rows of the gap table, as far as they are kept.
    gaps: Vec<Vec<i64>>,
}

impl Screen {
    /// Looks, by the calls that only ask.
    fn of(office: &mut Office) -> Result<Screen, String> {
        let last = by_library(office, &Act::LastDay)?;
        let split = by_library(office, &Act::Consequences)?;
        if last.number != DONE || split.number != DONE {
            return Err(format!("Last day gave {:?}, Consequences {:?}", last, split));
        }
        let counts = office.counts();
        let list = |all: &[u32], length: usize| all[..length].to_vec();
        let kept = engine::yard(office).unwrap_or(0);
        Ok(Screen {
            days: office.shelf.days.part()[..counts.steps as usize].to_vec(),
            stored: counts.last,
            told: last.one as u32,
            lists: [list(office.one.part(), split.one as usize), list(office.two.part(), split.two as usize)],
            gaps: office.shelf.gaps.part()[..kept].iter().map(|row| row[..kept].to_vec()).collect(),
        })
    }

    /// What another shows otherwise.
    fn difference(&self, other: &Screen) -> Option<String> {
        let day = (0..self.days.len()).find(|step| other.days[*step] != self.days[*step]);
        let list = (0..2).find(|list| self.lists[*list] != other.lists[*list]);
        let row = (0..self.gaps.len()).find(|row| self.gaps[*row] != other.gaps[*row]);
        day.map(|step| format!("the one has day {} for step {}, the other {}", self.days[step], step, other.days[step]))
            .or_else(|| (self.stored != other.stored).then(|| format!("the last day of the one is {}, of the other {}", self.stored, other.stored)))
            .or_else(|| (self.told != other.told).then(|| format!("the one is told the last day {}, the other {}", self.told, other.told)))
            .or_else(|| list.map(|list| format!("the one has {:?} in list {}, the other {:?}", self.lists[list], ["one", "two"][list], other.lists[list])))
            .or_else(|| row.map(|row| format!("the one has {:?} in row {} of the gap table, the other {:?}", self.gaps[row], row, other.gaps[row])))
    }

    /// What this one says and the one after it no more.
    fn unsaid(&self, after: &Screen) -> Option<String> {
        let earlier = (0..self.days.len()).find(|step| after.days[*step] < self.days[*step]);
        let larger = (0..self.gaps.len()).find(|row| self.gaps[*row].iter().zip(&after.gaps[*row]).any(|(before, after)| after > before));
        let gone = |list: usize| self.lists[list].iter().find(|number| !after.lists[list].contains(number));
        earlier
            .map(|step| format!("step {} has day {} after it and had {}", step, after.days[step], self.days[step]))
            .or_else(|| gone(0).map(|number| format!("{} is gone from the first list", number)))
            .or_else(|| gone(1).map(|number| format!("{} is gone from the second list", number)))
            .or_else(|| larger.map(|row| format!("row {} of the gap table was {:?} and is {:?}", row, self.gaps[row], after.gaps[row])))
    }
}

/// What must be there among many pairs.
const THINGS: [&str; 13] = [
    "rules", "rules again", "open marks", "ways back", "refusals", "Adds", "asserts", "first lists", "second lists", "withdrawals", "withdrawals that move a day", "free places between rules",
    "limits between two steps",
];

/// How often each thing was there.
#[derive(Default)]
struct Seen(BTreeMap<&'static str, usize>);

impl Seen {
    fn note(&mut self, thing: &'static str, times: usize) {
        *self.0.entry(thing).or_default() += times;
    }

    fn times(&self, thing: &str) -> usize {
        self.0.get(thing).copied().unwrap_or(0)
    }
}

/// The office after the calls. Nothing where they do not begin with an Open or a start that is accepted.
fn play(base: &Office, acts: &[Act], seen: &mut Seen) -> Result<Option<Office>, String> {
    let mut office = base.clone();
    for (at, act) in acts.iter().enumerate() {
        let adds = at > 0 && matches!(act, Act::Add(_));
        let asserts = at > 0 && matches!(act, Act::Command(text) if text.starts_with(b"(assert "));
        let before = if adds || asserts { Some(Screen::of(&mut office)?) } else { None };
        let days = matches!(act, Act::Withdraw(_)).then(|| office.shelf.days.clone());
        let done = by_library(&mut office, act)?.number == DONE;
        if at == 0 && !(done && matches!(act, Act::Open(_) | Act::Start)) {
            return Ok(None);
        }
        if let (Some(before), true) = (before, done) {
            if let Some(how) = before.unsaid(&Screen::of(&mut office)?) {
                return Err(format!("at {}: {}", act, how));
            }
            seen.note(if adds { "Adds" } else { "asserts" }, 1);
        }
        seen.note("refusals", usize::from(!done));
        seen.note("ways back", usize::from(done && matches!(act, Act::Back)));
        seen.note("withdrawals", usize::from(done && days.is_some()));
        seen.note("withdrawals that move a day", usize::from(days.map_or(false, |days| days != office.shelf.days)));
    }
    Ok(if acts.is_empty() { None } else { Some(office) })
}

/// The calls of the one and of the other.
#[derive(Clone)]
struct Pair([Vec<Act>; 2]);

/// The offices that the two begin on: nothing in them has a meaning.
struct Bases([Office; 2]);

/// True where the two end with the same question; an error says what is then not the same.
fn compare(mut one: Office, mut other: Office, seen: &mut Seen) -> Result<bool, String> {
    let question = Question::of(&one);
    if question != Question::of(&other) {
        return Ok(false);
    }
    let (mine, yours) = (Screen::of(&mut one)?, Screen::of(&mut other)?);
    seen.note("rules", question.rules.len());
    seen.note("rules again", other.counts().rules as usize - question.rules.len());
    seen.note("open marks", other.counts().marks as usize);
    seen.note("free places between rules", [&one, &other].iter().filter(|office| office.next_number() < office.counts().rules).count());
    seen.note("first lists", usize::from(!mine.lists[0].is_empty()));
    seen.note("second lists", usize::from(!mine.lists[1].is_empty()));
    let cells = mine.gaps.iter().flatten().filter(|cell| **cell != NO_LIMIT).count();
    seen.note("limits between two steps", cells - mine.gaps.len());
    mine.difference(&yours).map_or(Ok(true), Err)
}

impl Bases {
    /// Plays both. True where they end with the same question; an error says what is then not the same, or what was unsaid in one of them.
    fn same(&self, pair: &Pair) -> Result<bool, String> {
        let seen = &mut Seen::default();
        match (play(&self.0[0], &pair.0[0], seen)?, play(&self.0[1], &pair.0[1], seen)?) {
            (Some(one), Some(other)) => compare(one, other, seen),
            _ => Ok(false),
        }
    }

    /// The first sequence of a seed: one as the others are, without what a caller does between calls.
    fn first(&self, seed: u64) -> Result<Vec<Act>, String> {
        let mut writer = Writer::new(kind(seed), seed);
        let mut office = self.0[0].clone();
        let mut acts = Vec::new();
        while let Some(act) = writer.next(&office) {
            if act.call().is_none() {
                continue;
            }
            let opens = matches!(act, Act::Start) || matches!(act, Act::Open(steps) if (1..=STEPS as u32).contains(&steps));
            if acts.is_empty() && !opens {
                acts.push(Act::Open(4));
                by_library(&mut office, &acts[0])?;
            }
            let given = by_library(&mut office, &act)?;
            writer.note(&act, given, &office);
            acts.push(act);
        }
        Ok(acts)
    }

    /// The pair of a first sequence and of the second that its end and the seed give, where it fails, and how.
    fn failing(&self, seed: u64, first: &[Act], seen: &mut Seen) -> Option<(Pair, String)> {
        let one = match play(&self.0[0], first, seen) {
            Ok(office) => office?,
            Err(how) => return Some((Pair([first.to_vec(), Vec::new()]), how)),
        };
        let second = Second::write(&Question::of(&one), &mut Random::new(seed ^ 0x5EC0_4D));
        let how = match play(&self.0[1], &second, seen).map(|other| other.map(|other| compare(one, other, seen))) {
            Ok(Some(Ok(true))) => return None,
            Ok(Some(Err(how))) | Err(how) => how,
            _ => "the other does not end with the question of the one".to_string(),
        };
        Some((Pair([first.to_vec(), second]), how))
    }

    /// The shortest pair found that still fails, and how: first the first sequence is made short, each time with a second one of its own; then both are.
    fn shortest(&self, seed: u64, first: Vec<Act>) -> Option<(Pair, String)> {
        let began = Instant::now();
        let patient = || began.elapsed() < PATIENCE;
        let (mut pair, mut how) = self.failing(seed, &first, &mut Seen::default())?;
        let fewer = |acts: &[Act], run: Range<usize>| {
            let rest = [&acts[..run.start], &acts[run.end..]].concat();
            (pair, how) = self.failing(seed, &rest, &mut Seen::default())?;
            Some(rest)
        };
        shorten(first, 1, fewer, patient);
        let fails = |pair: Pair| self.same(&pair).err().map(|how| (pair, how));
        if let Some((plain, now)) = self.plain(&pair).and_then(fails) {
            (pair, how) = (plain, now);
        }
        let parts: Vec<(usize, Act)> = pair.0.into_iter().enumerate().flat_map(|(side, acts)| acts.into_iter().map(move |act| (side, act))).collect();
        let shorter = |parts: &[(usize, Act)], run: Range<usize>| {
            let rest = [without(parts, &run, false), without(parts, &run, true)];
            let (shorter, now) = rest.iter().find_map(|rest| Some((rest, fails(of_parts(rest))?.1)))?;
            how = now;
            Some(shorter.clone())
        };
        let short = shorten(parts, 0, shorter, patient);
        Some((of_parts(&short), how))
    }

    /// The same with what stands in the tables at the end alone: each side opens, adds by the levels and their numbers, and watches.
    fn plain(&self, pair: &Pair) -> Option<Pair> {
        let side = |which: usize| {
            let office = play(&self.0[which], &pair.0[which], &mut Seen::default()).ok()??;
            let counts = office.counts();
            let mut acts = vec![Act::Open(counts.steps)];
            for open in 0..=counts.marks {
                let level = office.numbers().into_iter().filter(|number| engine::level(&office, *number) == open);
                acts.extend((open > 0).then(|| Act::Mark));
                acts.extend(level.map(|number| Act::Add(office.rule(number as usize))));
            }
            acts.extend(Question::of(&office).watched.into_iter().map(Act::Watch));
            Some(acts)
        };
        Some(Pair([side(0)?, side(1)?]))
    }
}

/// What stays without a run; also without the same calls elsewhere.
fn without(parts: &[(usize, Act)], run: &Range<usize>, elsewhere: bool) -> Vec<(usize, Act)> {
    let gone: Vec<&Act> = parts[run.clone()].iter().map(|(_, act)| act).filter(|act| matches!(act, Act::Add(_) | Act::Watch(_))).collect();
    let stays = |(at, part): &(usize, &(usize, Act))| !run.contains(at) && !(elsewhere && gone.contains(&&part.1));
    parts.iter().enumerate().filter(stays).map(|(_, part)| part.clone()).collect()
}

fn of_parts(parts: &[(usize, Act)]) -> Pair {
    let side = |which: usize| parts.iter().filter(|(side, _)| *side == which).map(|(_, act)| act.clone()).collect();
    Pair([side(0), side(1)])
}

/// Most are small: what is dear of a pair is its steps.
fn kind(seed: u64) -> Kind {
    match seed % 40 {
        7 | 27 => Kind::Mixed,
        19 => Kind::Edges,
        n => [Kind::Small, Kind::Ties, Kind::Watching, Kind::Levels, Kind::Yard][n as usize % 5],
    }
}

/// The pairs of so many seeds, and the two clerks.
pub fn all(seed: u64, count: u64, tally: &mut Tally) {
    let bases = Bases([Office::new(seed), Office::new(!seed)]);
    let mut seen = Seen::default();
    let mut failed = 0;
    for seed in seed..seed + count {
        let outcome = bases.first(seed).and_then(|first| match bases.failing(seed, &first, &mut seen) {
            None => Ok(()),
            Some((_, how)) if failed >= SHOWN => Err(format!("  {}", how)),
            Some((_, how)) => Err(report(bases.shortest(seed, first), &how)),
        });
        failed += usize::from(outcome.is_err());
        tally.count(&format!("pair of seed {}", seed), outcome);
    }
    let told: Vec<String> = THINGS.iter().map(|thing| format!("{} {}", seen.times(thing), thing)).collect();
    println!("calls: {} pairs: {}", count, told.join(", "));
    tally.count("two clerks", clerks(&bases));
    if count >= 1_000 {
        let missing: Vec<_> = THINGS.iter().filter(|thing| seen.times(thing) == 0).collect();
        tally.count("everything is there in the pairs", if missing.is_empty() { Ok(()) } else { Err(format!("  not there: {:?}", missing)) });
    }
}

/// What is printed of a failing pair.
fn report(short: Option<(Pair, String)>, how: &str) -> String {
    let lines = |acts: &[Act]| acts.iter().map(|act| format!("    {}\n", act)).collect::<String>();
    match short {
        Some((Pair([one, other]), how)) => format!("  the one:\n{}  the other:\n{}  {}", lines(&one), lines(&other), how),
        None => format!("  {} (not seen again)", how),
    }
}

/// Two clerks, worked by hand: four steps, two rules, entered in two orders, the one's after a rule was withdrawn, and a place is free there; then both watch three
/// rules, and then both add one rule more.
fn clerks(bases: &Bases) -> Result<(), String> {
    let add = |first, second, amount| Act::Add(Rule { first, second, amount });
    let watch = [(0, 2, -5), (2, 0, 4), (0, 3, 7)].map(|(first, second, amount)| Act::Watch(Rule { first, second, amount }));
    let mut one = vec![Act::Open(4), add(0, 1, -2), add(3, 1, -7), add(1, 2, -3), add(0, 1, -2), Act::Withdraw(1)];
    let mut other = vec![Act::Open(4), Act::Mark, add(3, 0, -9), Act::Back, add(1, 2, -3), add(0, 1, -2)];
    one.extend(watch.clone());
    other.extend(watch);
    let mut both = Pair([one, other]);
    const N: i64 = NO_LIMIT;
    let gaps = |of_0_3: i64| vec![vec![0, -2, -5, of_0_3], vec![N, 0, -3, N], vec![N, N, 0, N], vec![N, N, N, 0]];
    for (more, days, last, first, of_0_3) in [(None, [0, 2, 5, 0], 5, vec![0], N), (Some(add(0, 3, -4)), [0, 2, 5, 4], 5, vec![0, 2], -4)] {
        both.0.iter_mut().for_each(|acts| acts.extend(more.clone()));
        let wanted = Screen { days: days.to_vec(), stored: last, told: last, lists: [first, vec![1]], gaps: gaps(of_0_3) };
        let mut office = play(&bases.0[1], &both.0[1], &mut Seen::default())?.ok_or("  a clerk's Open is refused")?;
        let got = Screen::of(&mut office)?;
        if got != wanted || !bases.same(&both)? {
            return Err(format!("  wanted {:?}\n  got {:?}", wanted, got));
        }
    }
    Ok(())
}
