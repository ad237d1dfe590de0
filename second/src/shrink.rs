//! A failing case made small: whatever can be left out or made simpler while the case still fails, is.

use crate::machine::HOUSE_BUDGET;
use crate::make::tables::{
    memory_bytes, memory_places, statement_names, ExpressionRecord, Names, Place, PolicyTable,
    RecipeTable, StatementRecord, SKIP,
};
use crate::make::{Case, Start};
use std::time::{Duration, Instant};

/// Candidates of one pass, each simpler than the case in one point.
type Pass = fn(&Case) -> Vec<Case>;

const PASSES: [Pass; 9] = [
    buffers,
    lending,
    statements,
    unused,
    expressions,
    places,
    policy,
    values,
    bytes,
];

/// Time after which a case is small enough.
const PATIENCE: Duration = Duration::from_secs(8);

pub fn shrink(case: &Case, fails: &dyn Fn(&Case) -> bool) -> Case {
    let until = Instant::now() + PATIENCE;
    let mut best = case.clone();
    loop {
        let before = best.clone();
        for pass in PASSES {
            best = shrink_by(pass, best, fails, until);
        }
        if best == before || Instant::now() > until {
            return best;
        }
    }
}

/// One pass over a case. After a success it goes on where it was: what failed before the success would mostly fail
/// again, and the next round tries it anyway.
fn shrink_by(pass: Pass, case: Case, fails: &dyn Fn(&Case) -> bool, until: Instant) -> Case {
    let mut best = case;
    let mut tried = 0;
    loop {
        let mut untried = pass(&best).into_iter().skip(tried);
        let simpler = untried.find(|candidate| {
            tried += 1;
            Instant::now() < until && fails(candidate)
        });
        match simpler {
            Some(candidate) => best = candidate,
            None => return best,
        }
        tried -= 1;
    }
}

// ---------------------------------------------------------------------------------------------- buffers and numbers

/// The case with another recipe.
fn with_recipe(case: &Case, table: &RecipeTable) -> Case {
    Case {
        recipe: table.to_bytes(),
        ..case.clone()
    }
}

/// The case with each start changed.
fn with_starts(case: &Case, change: impl Fn(&mut Start)) -> Case {
    let mut changed = case.clone();
    changed.starts.iter_mut().for_each(change);
    changed
}

/// Whole buffers left out, for refusals that do not need them.
fn buffers(case: &Case) -> Vec<Case> {
    let mut candidates = Vec::new();
    if !case.recipe.is_empty() {
        candidates.push(Case {
            recipe: Vec::new(),
            ..case.clone()
        });
    }
    if !case.policy.is_empty() {
        candidates.push(Case {
            policy: Vec::new(),
            ..case.clone()
        });
    }
    if case.starts.iter().any(|start| !start.memory.is_empty()) {
        candidates.push(with_starts(case, |start| start.memory.clear()));
    }
    candidates
}

/// Smaller numbers to try in the place of one, the smallest first.
fn smaller(number: usize, least: usize) -> Vec<usize> {
    let mut tried = vec![least, least + 1, number / 2, number.saturating_sub(1)];
    tried.retain(|&other| other >= least && other < number);
    tried.dedup();
    tried
}

/// Budgets, record rooms and report lengths.
fn lending(case: &Case) -> Vec<Case> {
    let mut candidates = Vec::new();
    for which in 0..case.starts.len() {
        let mut change = |change: &dyn Fn(&mut Start)| {
            let mut changed = case.clone();
            change(&mut changed.starts[which]);
            candidates.push(changed);
        };
        let start = &case.starts[which];
        match start.budget {
            0 => change(&|start| start.budget = HOUSE_BUDGET),
            budget => {
                for budget in smaller(budget as usize, 1) {
                    change(&|start| start.budget = budget as u32);
                }
            }
        }
        for room in smaller(start.room, 0) {
            change(&|start| start.room = room);
        }
    }
    for report in smaller(case.report, if case.report >= 12 { 12 } else { 0 }) {
        candidates.push(Case {
            report,
            ..case.clone()
        });
    }
    candidates
}

// ---------------------------------------------------------------------------------------------- records

/// The statements and expressions that a statement names.
fn named(record: &StatementRecord, what: Names) -> Vec<u16> {
    let fields = [record.a, record.b, record.c];
    let names = statement_names(record.kind);
    let wanted = fields.into_iter().zip(names);
    wanted
        .filter(|&(_, name)| name == what)
        .map(|(field, _)| field)
        .collect()
}

fn operands(record: &ExpressionRecord) -> Vec<u16> {
    match record.kind {
        3 | 4 => vec![record.a],
        5 => vec![record.a, record.b as u16],
        _ => Vec::new(),
    }
}

/// Earlier statements to begin with, statements replaced by a skip or by one of their own parts.
fn statements(case: &Case) -> Vec<Case> {
    let Some(table) = RecipeTable::from_bytes(&case.recipe) else {
        return Vec::new();
    };
    let mut candidates = Vec::new();
    for kept in 1..table.statements.len() {
        let mut changed = table.clone();
        changed.statements.truncate(kept);
        candidates.push(with_recipe(case, &changed));
    }
    for (own, record) in table.statements.iter().enumerate() {
        let parts = named(record, Names::Statement);
        let parts = parts
            .iter()
            .filter_map(|&part| table.statements.get(usize::from(part)));
        for replacement in std::iter::once(&SKIP).chain(parts) {
            if record == replacement {
                continue;
            }
            let mut changed = table.clone();
            changed.statements[own] = *replacement;
            candidates.push(with_recipe(case, &changed));
        }
    }
    candidates
}

/// Expressions replaced by a simple constant or by one of their operands.
fn expressions(case: &Case) -> Vec<Case> {
    let Some(table) = RecipeTable::from_bytes(&case.recipe) else {
        return Vec::new();
    };
    let constant = |value: u32| ExpressionRecord {
        kind: 1,
        operator: 0,
        a: 0,
        b: value,
    };
    let mut candidates = Vec::new();
    for (own, record) in table.expressions.iter().enumerate() {
        let mut simpler: Vec<ExpressionRecord> = match record.kind {
            1 => simpler_values(record.b as i32)
                .into_iter()
                .map(|value| constant(value as u32))
                .collect(),
            _ => vec![constant(0), constant(1)],
        };
        let parts = operands(record);
        let parts = parts
            .iter()
            .filter_map(|&part| table.expressions.get(usize::from(part)));
        simpler.extend(parts.filter(|&part| part != record));
        for replacement in simpler {
            let mut changed = table.clone();
            changed.expressions[own] = replacement;
            candidates.push(with_recipe(case, &changed));
        }
    }
    candidates
}

/// A number after record `gone` went.
fn renumbered(number: u16, gone: u16) -> u16 {
    number - u16::from(number > gone)
}

fn renumber_statement(record: &mut StatementRecord, what: Names, gone: u16) {
    let names = statement_names(record.kind);
    let fields = [&mut record.a, &mut record.b, &mut record.c];
    for (field, name) in fields.into_iter().zip(names) {
        if name == what {
            *field = renumbered(*field, gone);
        }
    }
}

/// Records and variables that nothing names are dropped.
fn unused(case: &Case) -> Vec<Case> {
    let Some(table) = RecipeTable::from_bytes(&case.recipe) else {
        return Vec::new();
    };
    let mut candidates = Vec::new();
    for own in (0..table.statements.len().saturating_sub(1)).rev() {
        candidates.extend(without_statement(&table, own as u16).map(|t| with_recipe(case, &t)));
    }
    for own in (0..table.expressions.len()).rev() {
        candidates.extend(without_expression(&table, own as u16).map(|t| with_recipe(case, &t)));
    }
    for own in (0..table.variables).rev() {
        if let Some(changed) = without_variable(&table, own) {
            let changed = with_recipe(case, &changed);
            candidates.extend(without_places(&changed, usize::from(own), 1));
        }
    }
    candidates
}

fn without_statement(table: &RecipeTable, own: u16) -> Option<RecipeTable> {
    let uses = |record: &StatementRecord| named(record, Names::Statement).contains(&own);
    if table.statements.iter().any(uses) {
        return None;
    }
    let mut changed = table.clone();
    changed.statements.remove(own.into());
    for record in &mut changed.statements {
        renumber_statement(record, Names::Statement, own);
    }
    Some(changed)
}

fn without_expression(table: &RecipeTable, own: u16) -> Option<RecipeTable> {
    let uses = |record: &StatementRecord| named(record, Names::Expression).contains(&own);
    let has = |record: &ExpressionRecord| operands(record).contains(&own);
    if table.statements.iter().any(uses) || table.expressions.iter().any(has) {
        return None;
    }
    let mut changed = table.clone();
    changed.expressions.remove(own.into());
    for record in &mut changed.statements {
        renumber_statement(record, Names::Expression, own);
    }
    for record in &mut changed.expressions {
        if (3..=5).contains(&record.kind) {
            record.a = renumbered(record.a, own);
        }
        if record.kind == 5 && record.b <= 0xFFFF {
            record.b = renumbered(record.b as u16, own).into();
        }
    }
    Some(changed)
}

fn without_variable(table: &RecipeTable, own: u16) -> Option<RecipeTable> {
    let uses = |record: &StatementRecord| named(record, Names::Variable).contains(&own);
    let reads = |record: &ExpressionRecord| record.kind == 2 && record.a == own;
    if table.statements.iter().any(uses) || table.expressions.iter().any(reads) {
        return None;
    }
    let mut changed = table.clone();
    changed.variables -= 1;
    for record in &mut changed.statements {
        renumber_statement(record, Names::Variable, own);
    }
    for record in &mut changed.expressions {
        if record.kind == 2 {
            record.a = renumbered(record.a, own);
        }
    }
    Some(changed)
}

// ---------------------------------------------------------------------------------------------- memory

/// The case without these places of its memories.
fn without_places(case: &Case, first: usize, count: usize) -> Option<Case> {
    let gone = 5 * first..5 * (first + count);
    let long_enough = |start: &Start| start.memory.len() >= gone.end;
    case.starts.iter().all(long_enough).then(|| {
        with_starts(case, |start| {
            start.memory.drain(gone.clone());
        })
    })
}

/// Fewer cells.
fn places(case: &Case) -> Vec<Case> {
    let Some(table) = RecipeTable::from_bytes(&case.recipe) else {
        return Vec::new();
    };
    let mut candidates = Vec::new();
    for cells in smaller(table.cells.into(), 0) {
        let mut changed = table.clone();
        changed.cells = cells as u16;
        let gone = usize::from(table.cells) - cells;
        let changed_case = with_recipe(case, &changed);
        candidates.extend(without_places(&changed_case, changed.places(), gone));
    }
    candidates
}

fn simpler_values(value: i32) -> Vec<i32> {
    let mut simpler = match value {
        0 => Vec::new(),
        1 => vec![0],
        _ => vec![0, 1, value / 2],
    };
    simpler.retain(|&other| other != value);
    simpler
}

fn simpler_places(place: Place) -> Vec<Place> {
    let mut simpler: Vec<Place> = simpler_values(place.value)
        .into_iter()
        .map(|value| Place { value, ..place })
        .collect();
    if place.tag != 0 {
        simpler.push(Place { tag: 0, ..place });
    }
    simpler
}

/// Simpler values and tags, in one memory or at once in both.
fn values(case: &Case) -> Vec<Case> {
    let mut candidates = Vec::new();
    for (which, start) in case.starts.iter().enumerate() {
        let Some(places) = memory_places(&start.memory) else {
            continue;
        };
        for (number, &place) in places.iter().enumerate() {
            for simpler in simpler_places(place) {
                let mut changed = case.clone();
                set_place(&mut changed.starts[which], number, simpler);
                candidates.push(changed);
                candidates.push(with_starts(case, |start| set_place(start, number, simpler)));
            }
        }
    }
    candidates.retain(|candidate| candidate != case);
    candidates
}

fn set_place(start: &mut Start, number: usize, place: Place) {
    if let Some(bytes) = start.memory.get_mut(5 * number..5 * number + 5) {
        bytes.copy_from_slice(&memory_bytes(&[place]));
    }
}

// ---------------------------------------------------------------------------------------------- policy

/// Fewer ports, lower clearances, fewer tags.
fn policy(case: &Case) -> Vec<Case> {
    let Some(table) = PolicyTable::from_bytes(&case.policy) else {
        return Vec::new();
    };
    let with_policy = |table: &PolicyTable| Case {
        policy: table.to_bytes(),
        ..case.clone()
    };
    let mut candidates = Vec::new();
    if !table.clearances.is_empty() {
        let mut changed = table.clone();
        changed.clearances.pop();
        candidates.push(with_policy(&changed));
    }
    for (port, &clearance) in table.clearances.iter().enumerate() {
        if clearance != 0 {
            let mut changed = table.clone();
            changed.clearances[port] = 0;
            candidates.push(with_policy(&changed));
        }
    }
    for tag in (1..table.tags).rev() {
        candidates.extend(without_tag(case, &table, tag as u8));
    }
    candidates
}

/// The case without a tag that is no join of two others; places that had it get tag 0.
fn without_tag(case: &Case, table: &PolicyTable, gone: u8) -> Option<Case> {
    let mut joins = Vec::new();
    for (at, &join) in table.joins.iter().enumerate() {
        let (row, column) = (at / table.tags, at % table.tags);
        if row == usize::from(gone) || column == usize::from(gone) {
            continue;
        }
        if join == gone {
            return None;
        }
        joins.push(lowered(join, gone));
    }
    let clearances = table.clearances.iter().map(|&tag| lowered(tag, gone));
    let changed = PolicyTable {
        tags: table.tags - 1,
        joins,
        clearances: clearances.collect(),
    };
    let mut changed_case = with_starts(case, |start| {
        for place in start.memory.chunks_exact_mut(5) {
            place[4] = lowered(place[4], gone);
        }
    });
    changed_case.policy = changed.to_bytes();
    changed_case.viewer = case.viewer.map(|tag| lowered(tag, gone));
    Some(changed_case)
}

fn lowered(tag: u8, gone: u8) -> u8 {
    match tag == gone {
        true => 0,
        false => tag - u8::from(tag > gone),
    }
}

// ---------------------------------------------------------------------------------------------- bytes

/// Shorter and emptier bytes, where there is no table to speak of.
fn bytes(case: &Case) -> Vec<Case> {
    let mut candidates = Vec::new();
    if RecipeTable::from_bytes(&case.recipe).is_none() {
        candidates.extend(simpler_bytes(&case.recipe).into_iter().map(|recipe| Case {
            recipe,
            ..case.clone()
        }));
    }
    if PolicyTable::from_bytes(&case.policy).is_none() {
        candidates.extend(simpler_bytes(&case.policy).into_iter().map(|policy| Case {
            policy,
            ..case.clone()
        }));
    }
    candidates
}

fn simpler_bytes(bytes: &[u8]) -> Vec<Vec<u8>> {
    let mut simpler: Vec<Vec<u8>> = smaller(bytes.len(), 0)
        .into_iter()
        .map(|length| bytes[..length].to_vec())
        .collect();
    for at in (0..bytes.len().min(300)).filter(|&at| bytes[at] != 0) {
        let mut emptier = bytes.to_vec();
        emptier[at] = 0;
        simpler.push(emptier);
    }
    simpler
}
