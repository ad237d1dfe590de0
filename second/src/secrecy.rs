//! The pair-run check: two runs that start alike to a viewer stay alike to that viewer.
//!
//! The visible records of one run are the beginning of the other's; if both are done, they are equal and the
//! places agree again. Each run has its own budget and its own record room, since hidden records use up room.

use crate::compare::{poisoned, Guarded};
use crate::machine::{self, Policy, Tagged};
use crate::make::random::Random;
use crate::make::{Case, Start};

/// The C host's entry of some machine.
pub type Judge = fn(&[u8], &[u8], &mut [u8], &mut [u8], &mut [u8], u32) -> u32;

#[derive(Clone, Debug, PartialEq, Eq)]
pub enum Verdict {
    /// The starts do not agree, or the policy is none: nothing is promised.
    NotAPair,
    Kept {
        /// Both runs were done, so that the places counted too.
        both_done: bool,
        /// Both runs made records that the viewer sees.
        both_spoke: bool,
    },
    Broken(String),
}

struct Ended {
    number: u32,
    places: Vec<Tagged>,
    /// The records that the viewer sees, each with its port.
    visible: Vec<Vec<u8>>,
}

/// Places agree if they are equal, or hidden from the viewer in both.
fn agree(policy: &Policy, viewer: u8, first: &[Tagged], second: &[Tagged]) -> bool {
    let hidden = |place: &Tagged| !policy.lies_under(place.tag, viewer);
    first.len() == second.len()
        && first
            .iter()
            .zip(second)
            .all(|(one, other)| one == other || (hidden(one) && hidden(other)))
}

fn tags_in_range(policy: &Policy, places: &[Tagged]) -> bool {
    places
        .iter()
        .all(|place| usize::from(place.tag) < policy.tags())
}

/// A run between guard bytes: the number, the memory and the bytes of the records.
fn run(judge: Judge, case: &Case, start: &Start) -> Result<(u32, Vec<u8>, Vec<u8>), String> {
    let poison = &mut Random::new(case.poison);
    let mut memory = Guarded::new(&start.memory, poison);
    let mut room = Guarded::new(&poisoned(start.room, poison), poison);
    let mut report = Guarded::new(&poisoned(machine::REPORT_LENGTH, poison), poison);
    let number = judge(
        &case.recipe,
        &case.policy,
        memory.content_mut(),
        room.content_mut(),
        report.content_mut(),
        start.budget,
    );
    if !memory.is_intact() || !room.is_intact() || !report.is_intact() {
        return Err("bytes beside a buffer were written".to_string());
    }
    let records = &report.content()[8..12];
    let records = u32::from_le_bytes([records[0], records[1], records[2], records[3]]) as usize;
    if records > start.room / machine::RECORD_LENGTH {
        return Err("the report tells of more records than there is room for".to_string());
    }
    let written = &room.content()[..records * machine::RECORD_LENGTH];
    Ok((number, memory.content().to_vec(), written.to_vec()))
}

/// A run and what the viewer sees of its records.
fn end(
    judge: Judge,
    case: &Case,
    start: &Start,
    policy: &Policy,
    viewer: u8,
) -> Result<Ended, String> {
    let (number, memory, records) = run(judge, case, start)?;
    let mut visible = Vec::new();
    for record in records.chunks_exact(machine::RECORD_LENGTH) {
        let port = usize::from(record[0]);
        if port >= policy.ports() {
            return Err("a record is on a port that is not there".to_string());
        }
        if policy.lies_under(policy.clearance(port), viewer) {
            visible.push(record.to_vec());
        }
    }
    let places = machine::read_places(&memory);
    match tags_in_range(policy, &places) {
        true => Ok(Ended {
            number,
            places,
            visible,
        }),
        false => Err("a place has a tag that is not there".to_string()),
    }
}

/// Whether a case is a pair of runs of which something is promised.
fn is_pair(case: &Case, policy: &Policy, viewer: u8) -> bool {
    let [first, second] = &case.starts[..] else {
        return false;
    };
    let (first, second) = (
        machine::read_places(&first.memory),
        machine::read_places(&second.memory),
    );
    usize::from(viewer) < policy.tags()
        && tags_in_range(policy, &first)
        && tags_in_range(policy, &second)
        && agree(policy, viewer, &first, &second)
}

pub fn check(judge: Judge, case: &Case) -> Verdict {
    let (Some(viewer), Ok(policy)) = (case.viewer, machine::read_policy(&case.policy)) else {
        return Verdict::NotAPair;
    };
    if !is_pair(case, &policy, viewer) {
        return Verdict::NotAPair;
    }
    let end = |start: &Start| end(judge, case, start, &policy, viewer);
    match (end(&case.starts[0]), end(&case.starts[1])) {
        (Ok(first), Ok(second)) => hold_together(&policy, viewer, &first, &second),
        (Err(broken), _) | (_, Err(broken)) => Verdict::Broken(broken),
    }
}

fn hold_together(policy: &Policy, viewer: u8, first: &Ended, second: &Ended) -> Verdict {
    let common = first.visible.len().min(second.visible.len());
    if first.visible[..common] != second.visible[..common] {
        return Verdict::Broken("the visible records part".to_string());
    }
    let done = u32::from(machine::number::DONE);
    let both_done = first.number == done && second.number == done;
    if both_done && first.visible.len() != second.visible.len() {
        return Verdict::Broken("both are done, with more visible records in one".to_string());
    }
    if both_done && !agree(policy, viewer, &first.places, &second.places) {
        return Verdict::Broken("both are done, and the places do not agree".to_string());
    }
    Verdict::Kept {
        both_done,
        both_spoke: common > 0,
    }
}
