//! A run: many cases of several kinds, on several threads, counted by kind.

use std::ops::Range;
use std::sync::Mutex;
use std::sync::atomic::{AtomicBool, AtomicU64, AtomicUsize, Ordering};
use std::thread;

use harness::random::Random;

/// How many cases a run has, and from which seed.
#[derive(Debug, Clone, Copy)]
pub struct Plan {
    pub pairs: u64,
    pub seed: u64,
    pub threads: usize,
}

/// Cases that share a stream of random numbers: so threads do not change what is run.
pub const CHUNK: u64 = 4096;
/// How many differences are printed.
const SHOWN: usize = 10;

#[derive(Debug)]
struct Tally {
    ran: Vec<u64>,
    different: Vec<u64>,
    shown: Vec<String>,
}

impl Tally {
    /// Of that many kinds.
    fn of(kinds: usize) -> Self {
        Self { ran: vec![0; kinds], different: vec![0; kinds], shown: Vec::new() }
    }
}

/// Runs the plan's cases, the kinds in turn, prints how many of each kind ran and differed,
/// and says whether none differed. `case` makes one of the given kind, and describes how
/// its answers differ if they do. A run stops soon after the first difference.
pub fn run<K: Copy + Sync>(
    plan: Plan,
    kinds: &[(K, &str)],
    case: impl Fn(K, &mut Random) -> Result<(), String> + Sync,
) -> bool {
    run_in_chunks(plan, CHUNK, kinds, case)
}

/// The same, with fewer cases to a stream of random numbers: for cases that take long.
pub fn run_in_chunks<K: Copy + Sync>(
    plan: Plan,
    size: u64,
    kinds: &[(K, &str)],
    case: impl Fn(K, &mut Random) -> Result<(), String> + Sync,
) -> bool {
    let next = AtomicU64::new(0);
    let stop = AtomicBool::new(false);
    let whole = Mutex::new(Tally::of(kinds.len()));
    let work = || {
        while !stop.load(Ordering::Relaxed) {
            let chunk = next.fetch_add(1, Ordering::Relaxed);
            let first = chunk.saturating_mul(size);
            if first >= plan.pairs {
                break;
            }
            let random = Random::stream(plan.seed, chunk);
            let tally = chunk_of(first..plan.pairs.min(first + size), kinds, &case, random);
            if !tally.shown.is_empty() {
                stop.store(true, Ordering::Relaxed);
            }
            let mut whole = whole.lock().expect("no thread panics while it adds");
            for k in 0..kinds.len() {
                whole.ran[k] += tally.ran[k];
                whole.different[k] += tally.different[k];
            }
            whole.shown.extend(tally.shown);
        }
    };
    thread::scope(|scope| {
        for _ in 1..plan.threads {
            scope.spawn(work);
        }
        work();
    });
    let whole = whole.into_inner().expect("no thread panics while it adds");
    for (k, (_, name)) in kinds.iter().enumerate() {
        println!("{:>12} ran {:>8} different  {name}", whole.ran[k], whole.different[k]);
    }
    for difference in whole.shown.iter().take(SHOWN) {
        println!("{difference}");
    }
    whole.shown.is_empty()
}

/// Runs cases that are each made from a seed of their own, `size` to a stream of random numbers. A
/// difference is told with the command, named `again`, that runs its case alone.
pub fn run_seeded<K: Copy + PartialEq + Sync>(
    plan: Plan,
    size: u64,
    kinds: &[(K, &str)],
    again: &str,
    case: impl Fn(K, u64) -> Result<(), String> + Sync,
) -> bool {
    run_in_chunks(plan, size, kinds, |kind, random| {
        let seed = random.bits();
        case(kind, seed).map_err(|e| {
            let number = number_of(&kind, kinds);
            format!("{e}\n  again: differential {again} --kind {number} --seed {seed}")
        })
    })
}

/// Runs each of these kinds once, however many cases the plan has.
pub fn run_each<K: Copy + Sync>(
    plan: Plan,
    kinds: &[(K, &str)],
    case: impl Fn(K, &mut Random) -> Result<(), String> + Sync,
) -> bool {
    run_in_chunks(Plan { pairs: kinds.len() as u64, ..plan }, 1, kinds, case)
}

/// Runs as many cases of one name, each of which is told its number, from 0.
pub fn run_numbered(
    plan: Plan,
    count: usize,
    name: &str,
    case: impl Fn(usize) -> Result<(), String> + Sync,
) -> bool {
    let next = AtomicUsize::new(0);
    run_in_chunks(Plan { pairs: count as u64, ..plan }, 1, &[((), name)], |(), _| {
        case(next.fetch_add(1, Ordering::Relaxed))
    })
}

/// Runs one case again, of the kind with this number, and says whether it did not differ.
pub fn run_one<K: Copy>(
    kind: u64,
    kinds: &[(K, &str)],
    case: impl FnOnce(K) -> Result<(), String>,
) -> Result<bool, String> {
    let &(kind, name) = kinds.get(kind as usize).ok_or_else(|| format!("no kind {kind}"))?;
    let outcome = case(kind);
    match &outcome {
        Ok(()) => println!("no difference, {name}"),
        Err(difference) => println!("DIFFERENT, {name}: {difference}"),
    }
    Ok(outcome.is_ok())
}

/// The number of a kind, by which one of its cases is run again.
fn number_of<K: PartialEq>(kind: &K, kinds: &[(K, &str)]) -> usize {
    kinds.iter().position(|(known, _)| known == kind).expect("it is one of them")
}

fn chunk_of<K: Copy>(
    cases: Range<u64>,
    kinds: &[(K, &str)],
    case: &impl Fn(K, &mut Random) -> Result<(), String>,
    mut random: Random,
) -> Tally {
    let mut tally = Tally::of(kinds.len());
    for number in cases {
        let k = (number % kinds.len() as u64) as usize;
        let (kind, name) = kinds[k];
        tally.ran[k] += 1;
        if let Err(difference) = case(kind, &mut random) {
            tally.different[k] += 1;
            if tally.shown.len() < SHOWN {
                tally.shown.push(format!("DIFFERENT, {name}: {difference}"));
            }
        }
    }
    tally
}

/// Runs so many cases of each kind, and panics at the first difference.
#[cfg(test)]
pub fn assert_every_kind_agrees<K: Copy>(
    kinds: &[(K, &str)],
    times: usize,
    mut case: impl FnMut(K, &mut Random) -> Result<(), String>,
) {
    let random = &mut Random::new(1);
    for &(kind, name) in kinds {
        for _ in 0..times {
            case(kind, random).unwrap_or_else(|e| panic!("{name}: {e}"));
        }
    }
}

#[cfg(test)]
mod tests {
    use std::collections::BTreeSet;
    use std::sync::Mutex;

    use super::{CHUNK, Plan, number_of, run, run_numbered, run_one};

    #[test]
    fn one_difference_fails_the_run() {
        let plan = Plan { pairs: 3 * CHUNK, seed: 1, threads: 2 };
        let kinds = [(0, "first"), (1, "second")];
        assert!(run(plan, &kinds, |_, _| Ok(())));
        let seen = Mutex::new(0_u64);
        assert!(!run(plan, &kinds, |_, _| {
            let mut seen = seen.lock().unwrap();
            *seen += 1;
            if *seen == CHUNK + 7 { Err("made up".to_string()) } else { Ok(()) }
        }));
    }

    #[test]
    fn a_case_is_run_again_by_its_number() {
        let kinds = [(5, "first"), (6, "second")];
        let case = |kind| if kind == 6 { Err("made up".to_string()) } else { Ok(()) };
        assert_eq!(number_of(&6, &kinds), 1);
        assert_eq!([0, 1].map(|number| run_one(number, &kinds, case)), [Ok(true), Ok(false)]);
        assert!(run_one(2, &kinds, case).is_err());
    }

    #[test]
    fn each_number_comes_once() {
        let plan = Plan { pairs: 0, seed: 1, threads: 2 };
        let seen = Mutex::new(Vec::new());
        assert!(run_numbered(plan, 9, "all", |number| {
            seen.lock().unwrap().push(number);
            Ok(())
        }));
        let mut seen = seen.into_inner().unwrap();
        seen.sort_unstable();
        assert_eq!(seen, (0..9).collect::<Vec<_>>());
    }

    #[test]
    fn threads_do_not_change_the_cases() {
        let cases = |threads| {
            let plan = Plan { pairs: 5 * CHUNK + 100, seed: 9, threads };
            let cases = Mutex::new(BTreeSet::new());
            assert!(run(plan, &[(0, "first"), (1, "second")], |kind, random| {
                cases.lock().unwrap().insert((kind, random.bits()));
                Ok(())
            }));
            cases.into_inner().unwrap()
        };
        assert_eq!(cases(1).len() as u64, 5 * CHUNK + 100);
        assert_eq!(cases(1), cases(3));
    }
}
