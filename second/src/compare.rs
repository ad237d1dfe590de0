//! One case on both machines: number, memory, record room and report byte for byte, and the bytes around them.

use crate::library;
use crate::machine::{self, Paper};
use crate::make::random::Random;
use crate::make::Case;

/// Bytes on either side of each lent buffer that the library has no business with.
const GUARD: usize = 64;

/// A lent buffer between guard bytes.
pub struct Guarded {
    bytes: Vec<u8>,
    start: usize,
    length: usize,
    seed: u8,
}

impl Guarded {
    pub fn new(content: &[u8], poison: &mut Random) -> Guarded {
        let seed = poison.byte();
        // Any alignment may come from C.
        let start = GUARD + poison.below(8);
        let mut bytes: Vec<u8> = (0..start).map(|at| guard_byte(seed, at)).collect();
        bytes.extend_from_slice(content);
        let end = bytes.len();
        bytes.extend((end..end + GUARD).map(|at| guard_byte(seed, at)));
        Guarded {
            bytes,
            start,
            length: content.len(),
            seed,
        }
    }

    pub fn content(&self) -> &[u8] {
        &self.bytes[self.start..self.start + self.length]
    }

    pub fn content_mut(&mut self) -> &mut [u8] {
        &mut self.bytes[self.start..self.start + self.length]
    }

    pub fn is_intact(&self) -> bool {
        let right = |at: usize| self.bytes[at] == guard_byte(self.seed, at);
        (0..self.start).all(right) && (self.start + self.length..self.bytes.len()).all(right)
    }
}

fn guard_byte(seed: u8, at: usize) -> u8 {
    seed ^ (at as u8).wrapping_mul(29)
}

/// What a lent buffer holds before the call: bytes that neither machine would write by itself.
pub fn poisoned(length: usize, poison: &mut Random) -> Vec<u8> {
    let mut bytes = Vec::with_capacity(length + 8);
    while bytes.len() < length {
        bytes.extend(poison.next().to_le_bytes());
    }
    bytes.truncate(length);
    bytes
}

/// Everything a call leaves behind.
#[derive(Clone, Debug, PartialEq, Eq)]
pub struct Trace {
    pub number: u32,
    pub memory: Vec<u8>,
    pub room: Vec<u8>,
    pub report: Vec<u8>,
}

/// The lent record room and report of a case, before the call.
fn lent(case: &Case) -> (Vec<u8>, Vec<u8>) {
    let mut poison = Random::new(case.poison);
    let room = poisoned(case.starts[0].room, &mut poison);
    let report = poisoned(case.report, &mut poison);
    (room, report)
}

pub fn by_second(case: &Case) -> Trace {
    let (mut room, mut report) = lent(case);
    let start = &case.starts[0];
    let mut memory = start.memory.clone();
    let number = machine::judge::<Paper>(
        &case.recipe,
        &case.policy,
        &mut memory,
        &mut room,
        &mut report,
        start.budget,
    );
    Trace {
        number,
        memory,
        room,
        report,
    }
}

/// The library's trace, and what it did to bytes that are not its own.
pub fn by_library(case: &Case) -> (Trace, Vec<String>) {
    let (room, report) = lent(case);
    let start = &case.starts[0];
    let poison = &mut Random::new(!case.poison);
    let recipe = Guarded::new(&case.recipe, poison);
    let policy = Guarded::new(&case.policy, poison);
    let mut memory = Guarded::new(&start.memory, poison);
    let mut room = Guarded::new(&room, poison);
    let mut report = Guarded::new(&report, poison);
    let number = library::judge_with_null(
        recipe.content(),
        policy.content(),
        memory.content_mut(),
        room.content_mut(),
        report.content_mut(),
        start.budget,
        poison.chance(50),
    );
    let mut broken = Vec::new();
    let buffers = [
        ("recipe", &recipe),
        ("policy", &policy),
        ("memory", &memory),
        ("record room", &room),
        ("report", &report),
    ];
    for (name, buffer) in buffers {
        if !buffer.is_intact() {
            broken.push(format!("the library wrote beside the {name}"));
        }
    }
    if recipe.content() != case.recipe || policy.content() != case.policy {
        broken.push("the library wrote into the recipe or the policy".to_string());
    }
    let trace = Trace {
        number,
        memory: memory.content().to_vec(),
        room: room.content().to_vec(),
        report: report.content().to_vec(),
    };
    (trace, broken)
}

/// The number of the second machine, and every point at which the library is not like it.
pub struct Comparison {
    pub number: u32,
    pub differences: Vec<String>,
}

fn note_bytes(differences: &mut Vec<String>, name: &str, second: &[u8], library: &[u8]) {
    if let Some(at) = (0..second.len()).find(|&at| second[at] != library[at]) {
        differences.push(format!(
            "{name} at byte {at}: second {:02x}, library {:02x}",
            second[at], library[at]
        ));
    }
}

/// A budget that can be waited for, even if it is used up.
const SHORT_BUDGET: u32 = 20_000;

/// The case with a budget that can be waited for, if its own is not.
fn with_short_budget(case: &Case) -> Option<Case> {
    (case.starts[0].budget > SHORT_BUDGET).then(|| {
        let mut short = case.clone();
        short.starts[0].budget = SHORT_BUDGET;
        short
    })
}

/// Compares a case. A library that goes wrong may make an endless run of one that ends, so a huge budget is only
/// given where a small one shows no difference.
pub fn compare(case: &Case) -> Comparison {
    if let Some(short) = with_short_budget(case) {
        let comparison = compare_as_is(&short);
        if !comparison.differences.is_empty() {
            return comparison;
        }
    }
    compare_as_is(case)
}

fn compare_as_is(case: &Case) -> Comparison {
    let second = by_second(case);
    let (library, mut differences) = by_library(case);
    if second.number != library.number {
        differences.push(format!(
            "number: second {}, library {}",
            second.number, library.number
        ));
    }
    note_bytes(&mut differences, "memory", &second.memory, &library.memory);
    note_bytes(&mut differences, "record room", &second.room, &library.room);
    note_bytes(&mut differences, "report", &second.report, &library.report);
    Comparison {
        number: second.number,
        differences,
    }
}

/// The house policy in a buffer of this length. Gives the second machine's number, and the differences.
pub fn compare_house_policy(length: usize, poison: u64) -> Comparison {
    let poison = &mut Random::new(poison);
    let mut second = poisoned(length, poison);
    let mut library = Guarded::new(&second, poison);
    let number = machine::house_policy(&mut second);
    let library_number = library::house_policy(library.content_mut(), poison.chance(50));
    let mut differences = Vec::new();
    if number != library_number {
        differences.push(format!("number: second {number}, library {library_number}"));
    }
    note_bytes(&mut differences, "policy", &second, library.content());
    if !library.is_intact() {
        differences.push("the library wrote beside the buffer".to_string());
    }
    Comparison {
        number,
        differences,
    }
}
