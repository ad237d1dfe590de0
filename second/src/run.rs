//! Many cases, on two threads, with a watch over both: a library that does not come back is reported too.

use crate::library;
use crate::machine::{self, Paper};
use crate::make::{self, Case};
use crate::secrecy::{self, Verdict};
use crate::{compare, words};
use std::ops::Range;
use std::sync::atomic::{AtomicU64, Ordering};
use std::thread;
use std::time::{Duration, Instant};

const THREADS: usize = 2;
/// Cases that a thread takes at a time.
const BLOCK: u64 = 64;
/// Failing cases that are kept; the rest are only counted.
const MOST_FAILURES: usize = 64;
/// No case takes a sound machine this long.
const PATIENCE: Duration = Duration::from_secs(30);

#[derive(Clone, Copy, Debug, PartialEq, Eq, PartialOrd, Ord)]
pub enum Kind {
    Comparison,
    Pair,
}

/// What came of some cases.
#[derive(Default)]
pub struct Tally {
    pub cases: u64,
    pub differ: u64,
    numbers: [u64; 32],
    pub pairs: u64,
    pub both_done: u64,
    pub both_spoke: u64,
    /// The first failing cases.
    pub failures: Vec<(Kind, u64)>,
    /// How many of them were shown, by kind.
    pub shown: [usize; 2],
}

impl Tally {
    pub fn reach(&mut self, number: u32) {
        self.numbers[number as usize] += 1;
    }

    pub fn reached(&self, number: u32) -> u64 {
        self.numbers[number as usize]
    }

    pub fn add(&mut self, other: Tally) {
        self.cases += other.cases;
        self.differ += other.differ;
        for (number, count) in other.numbers.into_iter().enumerate() {
            self.numbers[number] += count;
        }
        self.pairs += other.pairs;
        self.both_done += other.both_done;
        self.both_spoke += other.both_spoke;
        self.failures.extend(other.failures);
        self.failures.sort_unstable();
        self.failures.truncate(MOST_FAILURES);
    }

    fn fail(&mut self, kind: Kind, case: u64) {
        self.differ += 1;
        if self.failures.len() < MOST_FAILURES {
            self.failures.push((kind, case));
        }
    }

    fn comparison(&mut self, seed: u64, number: u64) {
        let comparison = compare::compare(&make::comparison(seed, number));
        self.cases += 1;
        self.reach(comparison.number);
        if !comparison.differences.is_empty() {
            self.fail(Kind::Comparison, number);
        }
    }

    fn pair(&mut self, seed: u64, number: u64) {
        self.cases += 1;
        self.pairs += 1;
        match secrecy::check(library::judge, &make::pair(seed, number)) {
            Verdict::Kept {
                both_done,
                both_spoke,
            } => {
                self.both_done += u64::from(both_done);
                self.both_spoke += u64::from(both_spoke);
            }
            Verdict::NotAPair | Verdict::Broken(_) => self.fail(Kind::Pair, number),
        }
    }
}

/// Steps that a case made small may take at most.
const SMALL_CASE_STEPS: u32 = 200_000;

/// Whether a case still differs while it is made small. A simpler recipe may not end any more: then its budget
/// has to be one that can be waited for.
pub fn differs(case: &Case) -> bool {
    let start = &case.starts[0];
    if start.budget > SMALL_CASE_STEPS {
        let (mut memory, mut room) = (start.memory.clone(), vec![0; start.room]);
        let trial = machine::carry_out::<Paper>(
            &case.recipe,
            &case.policy,
            &mut memory,
            &mut room,
            SMALL_CASE_STEPS,
        );
        if trial.number == machine::number::BUDGET_USED {
            return false;
        }
    }
    !compare::compare(case).differences.is_empty()
}

/// The cases of a kind with these numbers.
pub fn cases(kind: Kind, seed: u64, numbers: Range<u64>) -> Tally {
    let next = AtomicU64::new(numbers.start);
    let current: [AtomicU64; THREADS] = Default::default();
    let mut whole = Tally::default();
    thread::scope(|scope| {
        let next = &next;
        let workers: Vec<_> = current
            .iter()
            .map(|current| scope.spawn(move || work(kind, seed, next, numbers.end, current)))
            .collect();
        watch(kind, seed, &current, || {
            workers.iter().all(|worker| worker.is_finished())
        });
        for worker in workers {
            whole.add(worker.join().expect("the tool itself does not panic"));
        }
    });
    whole
}

fn work(kind: Kind, seed: u64, next: &AtomicU64, end: u64, current: &AtomicU64) -> Tally {
    let mut tally = Tally::default();
    loop {
        let block = next.fetch_add(BLOCK, Ordering::Relaxed);
        if block >= end {
            return tally;
        }
        for number in block..end.min(block + BLOCK) {
            current.store(number, Ordering::Relaxed);
            match kind {
                Kind::Comparison => tally.comparison(seed, number),
                Kind::Pair => tally.pair(seed, number),
            }
        }
    }
}

/// Waits for the workers; if one stays at a case for too long, says at which and gives up.
fn watch(kind: Kind, seed: u64, current: &[AtomicU64; THREADS], finished: impl Fn() -> bool) {
    let mut seen = [(u64::MAX, Instant::now()); THREADS];
    while !finished() {
        thread::sleep(Duration::from_millis(5));
        for (worker, (case, since)) in current.iter().zip(&mut seen) {
            let now = worker.load(Ordering::Relaxed);
            if *case != now {
                (*case, *since) = (now, Instant::now());
            } else if since.elapsed() > PATIENCE && !finished() {
                give_up(kind, seed, now);
            }
        }
    }
}

fn give_up(kind: Kind, seed: u64, number: u64) -> ! {
    let case = match kind {
        Kind::Comparison => make::comparison(seed, number),
        Kind::Pair => make::pair(seed, number),
    };
    println!("case {number} of seed {seed} does not come back:");
    println!("  second replay {}", words::of_case(&case));
    std::process::exit(1)
}
