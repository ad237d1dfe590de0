//! The second machine and the differential tester of the Vraduceni library.

mod bench;
mod compare;
mod library;
mod machine;
mod make;
mod planted;
mod run;
mod secrecy;
mod shrink;
mod words;

use make::Case;
use run::{Kind, Tally};
use secrecy::Verdict;
use std::ops::Range;
use std::process::ExitCode;
use std::time::{Duration, Instant, SystemTime, UNIX_EPOCH};

/// The seed of the gate. Any would do; a fixed one makes every gate the same.
const GATE_SEED: u64 = 0x5652_4144;
const GATE_COMPARISONS: u64 = 600_000;
const GATE_PAIRS: u64 = 100_000;
/// Buffer lengths for the house policy, each from 0 up.
const HOUSE_LENGTHS: usize = 400;
/// Failing cases of a kind that are made small and printed; the rest are only counted.
const MOST_SHOWN: usize = 3;

const USAGE: &str =
    "usage: second [gate | long SECONDS [SEED] | planted | careful [SEED] | replay WORDS-or-FILE]";

fn main() -> ExitCode {
    let arguments: Vec<String> = std::env::args().skip(1).collect();
    let arguments: Vec<&str> = arguments.iter().map(String::as_str).collect();
    let passed = match arguments[..] {
        [] | ["gate"] => Ok(gate()),
        ["long", seconds] => number(seconds).map(|seconds| long(seconds, clock_seed())),
        ["long", seconds, seed] => {
            number(seconds).and_then(|seconds| number(seed).map(|seed| long(seconds, seed)))
        }
        ["planted"] => Ok(all_planted_found()),
        ["careful"] => careful(GATE_SEED),
        ["careful", seed] => number(seed).and_then(careful),
        ["replay", ref words @ ..] if !words.is_empty() => replay(words),
        _ => Err(USAGE.to_string()),
    };
    match passed {
        Ok(true) => ExitCode::SUCCESS,
        Ok(false) => ExitCode::FAILURE,
        Err(message) => {
            eprintln!("second: {message}");
            ExitCode::from(2)
        }
    }
}

fn number(digits: &str) -> Result<u64, String> {
    digits
        .parse()
        .map_err(|_| format!("{digits}: not a number\n{USAGE}"))
}

fn clock_seed() -> u64 {
    let now = SystemTime::now().duration_since(UNIX_EPOCH);
    now.map_or(1, |now| now.as_nanos() as u64)
}

// ---------------------------------------------------------------------------------------------- gate and long run

fn gate() -> bool {
    let mut tally = Tally::default();
    bench_examples(&mut tally);
    house_policies(&mut tally);
    let (comparisons, pairs) = (0..GATE_COMPARISONS, 0..GATE_PAIRS);
    run_and_show(&mut tally, Kind::Comparison, GATE_SEED, comparisons);
    run_and_show(&mut tally, Kind::Pair, GATE_SEED, pairs);
    show_numbers(&tally);
    show_pairs(&tally);
    let found = all_planted_found();
    let reached = all_reached(&tally);
    conclude(&tally, found && reached)
}

/// Blocks of comparisons and pairs in turn until the time is up.
fn long(seconds: u64, seed: u64) -> bool {
    println!("seed {seed}");
    let until = Instant::now() + Duration::from_secs(seconds);
    let mut tally = Tally::default();
    bench_examples(&mut tally);
    house_policies(&mut tally);
    let block = |number: u64, size: u64| number * size..(number + 1) * size;
    for number in 0.. {
        run_and_show(&mut tally, Kind::Comparison, seed, block(number, 20_000));
        run_and_show(&mut tally, Kind::Pair, seed, block(number, 5_000));
        if Instant::now() > until {
            break;
        }
    }
    show_numbers(&tally);
    show_pairs(&tally);
    conclude(&tally, true)
}

/// Failing cases are shown at once: a library that writes where it should not may not let the tool live much longer.
fn run_and_show(tally: &mut Tally, kind: Kind, seed: u64, numbers: Range<u64>) {
    let part = run::cases(kind, seed, numbers);
    let shown = &mut tally.shown[kind as usize];
    for &(kind, case) in part.failures.iter().take(MOST_SHOWN - *shown) {
        *shown += 1;
        show_failure(kind, seed, case);
    }
    tally.add(part);
}

fn conclude(tally: &Tally, tool_is_sharp: bool) -> bool {
    let short = match tool_is_sharp {
        true => "",
        false => ", but the gate itself falls short (see above)",
    };
    println!(
        "second: {} cases, {} differ{short}",
        tally.cases, tally.differ
    );
    tally.differ == 0 && tool_is_sharp
}

fn bench_examples(tally: &mut Tally) {
    let (examples, wrong) = bench::run();
    tally.cases += examples;
    tally.differ += wrong.len() as u64;
    for line in wrong {
        println!("{line}");
    }
}

fn house_policies(tally: &mut Tally) {
    let mut wrong = Vec::new();
    for length in 0..HOUSE_LENGTHS {
        for poison in 1..=4 {
            let comparison = compare::compare_house_policy(length, poison);
            tally.cases += 1;
            if comparison.number == u32::from(machine::number::HOUSE_BUFFER) {
                tally.reach(comparison.number);
            }
            if !comparison.differences.is_empty() {
                let differences = comparison.differences.join("; ");
                wrong.push(format!("house policy in {length} bytes: {differences}"));
            }
        }
    }
    tally.differ += wrong.len() as u64;
    for line in wrong.iter().take(MOST_SHOWN) {
        println!("{line}");
    }
}

// ---------------------------------------------------------------------------------------------- what is shown

const NUMBERS: [u32; 24] = [
    0, 1, 2, 3, 4, 5, 6, 7, 8, 16, 17, 18, 19, 20, 21, 22, 23, 24, 25, 26, 27, 28, 29, 30,
];

fn show_numbers(tally: &Tally) {
    println!("numbers reached:");
    for number in NUMBERS {
        let note = match number {
            8 => "  (cannot be reached: fewer than S frames are ever held)",
            29 => "  (house policy)",
            _ => "",
        };
        println!("  {number:2}: {:7}{note}", tally.reached(number));
    }
}

fn show_pairs(tally: &Tally) {
    println!(
        "pairs of runs: {}, both done in {}, both with visible records in {}",
        tally.pairs, tally.both_done, tally.both_spoke
    );
}

fn all_reached(tally: &Tally) -> bool {
    let missed: Vec<u32> = NUMBERS
        .into_iter()
        .filter(|&number| number != 8 && tally.reached(number) == 0)
        .collect();
    if !missed.is_empty() {
        println!("never reached: {missed:?}");
    }
    missed.is_empty()
}

fn show_failure(kind: Kind, seed: u64, case: u64) {
    println!("case {case} of seed {seed}:");
    match kind {
        Kind::Comparison => show_difference(&make::comparison(seed, case)),
        Kind::Pair => show_broken_pair(&make::pair(seed, case)),
    }
}

fn show_difference(case: &Case) {
    let small = shrink::shrink(case, &run::differs);
    for difference in compare::compare(&small).differences {
        println!("  {difference}");
    }
    show_small(&small);
}

fn show_small(case: &Case) {
    print!("{}", words::listing(case));
    println!("  second replay {}", words::of_case(case));
}

fn show_broken_pair(case: &Case) {
    let broken = |case: &Case| matches!(secrecy::check(library::judge, case), Verdict::Broken(_));
    let small = shrink::shrink(case, &broken);
    println!("  {:?}", secrecy::check(library::judge, &small));
    show_small(&small);
}

// ---------------------------------------------------------------------------------------------- planted errors

/// The same pairs as the gate's, on each planted machine, until one is broken.
fn all_planted_found() -> bool {
    println!("planted errors, found by the pair-run check at:");
    let mut all = true;
    for (name, judge) in planted::PLANTED {
        let broken = |&case: &u64| {
            let pair = make::pair(GATE_SEED, case);
            matches!(secrecy::check(judge, &pair), Verdict::Broken(_))
        };
        match (0..GATE_PAIRS).find(broken) {
            Some(case) => println!("  {name}: pair {}", case + 1),
            None => {
                println!("  {name}: NOT FOUND in {GATE_PAIRS} pairs");
                all = false;
            }
        }
    }
    all
}

// ---------------------------------------------------------------------------------------------- single cases

/// The gate's cases one by one, each put into a file before it is run: for a library that takes the whole process
/// down with it.
fn careful(seed: u64) -> Result<bool, String> {
    for number in 0..GATE_COMPARISONS {
        let case = make::comparison(seed, number);
        keep(&case)?;
        if run::differs(&case) {
            show_difference(&case);
            return Ok(false);
        }
    }
    for number in 0..GATE_PAIRS {
        let case = make::pair(seed, number);
        keep(&case)?;
        if let Verdict::Broken(_) = secrecy::check(library::judge, &case) {
            show_broken_pair(&case);
            return Ok(false);
        }
    }
    println!("second: {} cases, 0 differ", GATE_COMPARISONS + GATE_PAIRS);
    Ok(true)
}

fn keep(case: &Case) -> Result<(), String> {
    std::fs::write("last-case.txt", words::of_case(case)).map_err(|error| error.to_string())
}

/// Words given outright, or a file of them.
fn replay(words: &[&str]) -> Result<bool, String> {
    let text = match words {
        [file] if !file.contains('=') => {
            std::fs::read_to_string(file).map_err(|error| format!("{file}: {error}"))?
        }
        _ => words.join(" "),
    };
    let case = words::to_case(&text)?;
    print!("{}", words::listing(&case));
    if case.viewer.is_some() {
        let verdict = secrecy::check(library::judge, &case);
        println!("{verdict:?}");
        return Ok(!matches!(verdict, Verdict::Broken(_)));
    }
    Ok(replay_comparison(&case))
}

fn replay_comparison(case: &Case) -> bool {
    println!("second:  {}", words::of_trace(&compare::by_second(case)));
    let (library, _) = compare::by_library(case);
    println!("library: {}", words::of_trace(&library));
    let comparison = compare::compare(case);
    for difference in &comparison.differences {
        println!("{difference}");
    }
    println!(
        "second: 1 cases, {} differ",
        u32::from(!comparison.differences.is_empty())
    );
    comparison.differences.is_empty()
}
