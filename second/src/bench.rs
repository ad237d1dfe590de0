//! The paper's bench examples, with the results the paper gives: they hold the second machine itself to the paper.

use crate::compare::{by_library, by_second, Trace};
use crate::make::tables::{
    memory_bytes, Place, RecipeTable, ADD, DIVIDE, MULTIPLY, NEGATE, REMAINDER,
};
use crate::make::{Case, Start};

struct Example {
    name: &'static str,
    case: Case,
    /// End or refusal, place, steps, records.
    report: (u16, u16, u32, u32),
    /// The memory afterwards, where the paper says it.
    memory: Option<Vec<Place>>,
    /// The records, where the paper says them.
    records: Option<Vec<u8>>,
}

/// The countdown recipe, whole.
const COUNTDOWN: [u8; 56] = [
    0x52, 0x4A, 0x52, 0x01, 0x00, 0x00, 0x03, 0x00, 0x02, 0x00, 0x01, 0x00, 0x00, 0x00, 0x00, 0x00,
    0x02, 0x00, 0x00, 0x00, 0x00, 0x00, 0x00, 0x00, 0x01, 0x00, 0x00, 0x00, 0x01, 0x00, 0x00, 0x00,
    0x05, 0x01, 0x00, 0x00, 0x01, 0x00, 0x00, 0x00, 0x01, 0x00, 0x00, 0x00, 0x02, 0x00, 0x00, 0x00,
    0x05, 0x00, 0x00, 0x00, 0x00, 0x00, 0x00, 0x00,
];

const TWO_TAGS: [u8; 14] = [
    0x52, 0x4A, 0x50, 0x01, 0x00, 0x00, 0x02, 0x02, 0x00, 0x01, 0x01, 0x01, 0x00, 0x01,
];

fn place(value: i32, tag: u8) -> Place {
    Place { value, tag }
}

fn example(
    name: &'static str,
    recipe: Vec<u8>,
    memory: &[Place],
    report: (u16, u16, u32, u32),
) -> Example {
    Example {
        name,
        case: Case {
            recipe,
            policy: TWO_TAGS.to_vec(),
            starts: vec![Start {
                memory: memory_bytes(memory),
                room: 320,
                budget: 1_000,
            }],
            report: 12,
            viewer: None,
            poison: 4,
        },
        report,
        memory: None,
        records: None,
    }
}

impl Example {
    fn budget(mut self, budget: u32) -> Example {
        self.case.starts[0].budget = budget;
        self
    }

    fn room(mut self, room: usize) -> Example {
        self.case.starts[0].room = room;
        self
    }

    fn leaves(mut self, memory: &[Place]) -> Example {
        self.memory = Some(memory.to_vec());
        self
    }

    fn records(mut self, records: &[u8]) -> Example {
        self.records = Some(records.to_vec());
        self
    }

    fn fits(&self, trace: &Trace) -> bool {
        let (end, place, steps, records) = self.report;
        let mut report = Vec::new();
        report.extend(end.to_le_bytes());
        report.extend(place.to_le_bytes());
        report.extend(steps.to_le_bytes());
        report.extend(records.to_le_bytes());
        let memory = self.memory.as_deref().map(memory_bytes);
        trace.number == u32::from(end)
            && trace.report == report
            && memory.is_none_or(|memory| memory == trace.memory)
            && self
                .records
                .as_ref()
                .is_none_or(|records| trace.room.starts_with(records))
    }
}

fn countdown(name: &'static str, from: Place, report: (u16, u16, u32, u32)) -> Example {
    example(name, COUNTDOWN.to_vec(), &[from], report)
}

/// If h then x := 1 else skip; h is variable 0, x variable 1.
fn mark_or_skip() -> Vec<u8> {
    let mut table = RecipeTable::new(2, 0);
    let (test, one) = (table.variable(0), table.constant(1));
    let (skip, assign) = (table.skip(), table.assign(1, one));
    table.branch(test, assign, skip);
    table.to_bytes()
}

fn emit_variable(port: u8) -> Vec<u8> {
    let mut table = RecipeTable::new(1, 0);
    let value = table.variable(0);
    table.emit(port, value);
    table.to_bytes()
}

/// Variable 0 := left operator right.
fn compute(left: i32, operator: u8, right: i32) -> Vec<u8> {
    let mut table = RecipeTable::new(1, 0);
    let (left, right) = (table.constant(left), table.constant(right));
    let value = table.binary(operator, left, right);
    table.assign(0, value);
    table.to_bytes()
}

fn computed(name: &'static str, left: i32, operator: u8, right: i32, result: i32) -> Example {
    let recipe = compute(left, operator, right);
    example(name, recipe, &[place(9, 0)], (0, 0, 1, 0)).leaves(&[place(result, 0)])
}

fn negations(count: usize) -> Vec<u8> {
    let mut table = RecipeTable::new(0, 0);
    let mut last = table.constant(1);
    for _ in 0..count {
        last = table.unary(NEGATE, last);
    }
    table.emit(0, last);
    table.to_bytes()
}

fn doublings(count: usize) -> Vec<u8> {
    let mut table = RecipeTable::new(0, 0);
    let mut last = table.constant(1);
    for _ in 0..count {
        last = table.binary(ADD, last, last);
    }
    table.skip();
    table.to_bytes()
}

/// Variable 0 := the cell at this index of three.
fn load(index: i32) -> Vec<u8> {
    let mut table = RecipeTable::new(1, 3);
    let index = table.constant(index);
    let loaded = table.cell(index);
    table.assign(0, loaded);
    table.to_bytes()
}

fn skips(count: usize) -> Vec<u8> {
    let mut table = RecipeTable::new(0, 0);
    for _ in 0..count {
        table.skip();
    }
    table.to_bytes()
}

fn examples() -> Vec<Example> {
    let four = [place(0, 0), place(11, 0), place(12, 0), place(13, 0)];
    let loaded = [place(13, 0), place(11, 0), place(12, 0), place(13, 0)];
    vec![
        countdown("P1", place(2, 0), (0, 0, 5, 0))
            .budget(5)
            .leaves(&[place(0, 0)]),
        countdown("P2", place(2, 0), (1, 0, 4, 0))
            .budget(4)
            .leaves(&[place(0, 0)]),
        countdown("P3", place(0, 0), (0, 0, 1, 0)),
        countdown("P4", place(2, 1), (0, 0, 5, 0))
            .budget(5)
            .leaves(&[place(0, 1)]),
        example(
            "P5",
            mark_or_skip(),
            &[place(1, 1), place(0, 0)],
            (2, 1, 2, 0),
        )
        .leaves(&[place(1, 1), place(0, 0)]),
        example(
            "P6",
            mark_or_skip(),
            &[place(0, 1), place(0, 0)],
            (0, 0, 3, 0),
        )
        .leaves(&[place(0, 1), place(0, 0)]),
        example(
            "P7",
            mark_or_skip(),
            &[place(1, 1), place(0, 1)],
            (0, 0, 3, 0),
        )
        .leaves(&[place(1, 1), place(1, 1)]),
        example("P8", emit_variable(0), &[place(7, 1)], (4, 0, 1, 0)),
        example("P9", emit_variable(1), &[place(7, 1)], (0, 0, 1, 1))
            .room(5)
            .records(&[1, 7, 0, 0, 0]),
        example("P10", emit_variable(1), &[place(7, 1)], (7, 0, 1, 0)).room(4),
        computed("P11", i32::MAX, ADD, 1, i32::MIN),
        computed("P12 quotient", -7, DIVIDE, 2, -3),
        computed("P12 remainder", -7, REMAINDER, 2, -1),
        computed("P13", 65536, MULTIPLY, 65536, 0),
        example("255 negations", negations(255), &[], (0, 0, 1, 1))
            .records(&[0, 255, 255, 255, 255]),
        example("256 negations", negations(256), &[], (21, 256, 0, 0)),
        example("eight doublings", doublings(8), &[], (21, 8, 0, 0)),
        example("index M-1", load(2), &four, (0, 0, 1, 0)).leaves(&loaded),
        example("index M", load(3), &four, (5, 0, 1, 0)).leaves(&four),
        example("S = 512", skips(512), &[], (0, 0, 1, 0)),
        example("S = 513", skips(513), &[], (19, 0, 0, 0)),
    ]
}

/// Runs all examples on both machines. Gives how many there are, and what went wrong.
pub fn run() -> (u64, Vec<String>) {
    let mut wrong = Vec::new();
    let examples = examples();
    for example in &examples {
        if !example.fits(&by_second(&example.case)) {
            wrong.push(format!(
                "{}: the second machine is not like the paper",
                example.name
            ));
        }
        let (trace, broken) = by_library(&example.case);
        if !example.fits(&trace) || !broken.is_empty() {
            wrong.push(format!(
                "{}: the library is not like the paper",
                example.name
            ));
        }
    }
    (examples.len() as u64, wrong)
}
