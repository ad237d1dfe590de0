//! A case as words, `name=value` each, so that it can be printed, kept in a file and run again.
//!
//! `recipe`, `policy` and `memory` are hex; `room`, `report`, `budget` and `viewer` decimal; `poison` is what the
//! lent buffers hold before the call. Each `memory` begins another start. A case with a `viewer` is a pair of runs.

use crate::compare::Trace;
use crate::make::tables::{ExpressionRecord, RecipeTable, StatementRecord};
use crate::make::{Case, Start};

fn hex(bytes: &[u8]) -> String {
    bytes.iter().map(|byte| format!("{byte:02x}")).collect()
}

pub fn of_case(case: &Case) -> String {
    let mut words = vec![
        format!("recipe={}", hex(&case.recipe)),
        format!("policy={}", hex(&case.policy)),
    ];
    for start in &case.starts {
        words.push(format!("memory={}", hex(&start.memory)));
        words.push(format!("room={}", start.room));
        words.push(format!("budget={}", start.budget));
    }
    words.push(format!("report={}", case.report));
    words.push(format!("poison={}", case.poison));
    words.extend(case.viewer.map(|viewer| format!("viewer={viewer}")));
    words.join(" ")
}

fn unhex(digits: &str) -> Result<Vec<u8>, String> {
    if !digits.len().is_multiple_of(2) || !digits.is_ascii() {
        return Err("hex comes in pairs of digits".to_string());
    }
    (0..digits.len() / 2)
        .map(|at| number_in(&digits[2 * at..2 * at + 2], 16).map(|byte| byte as u8))
        .collect()
}

fn number_in(digits: &str, radix: u32) -> Result<u64, String> {
    u64::from_str_radix(digits, radix).map_err(|error| format!("{digits}: {error}"))
}

fn last_start(case: &mut Case) -> Result<&mut Start, String> {
    case.starts
        .last_mut()
        .ok_or("room and budget come after a memory".to_string())
}

fn take_word(case: &mut Case, word: &str) -> Result<(), String> {
    let (name, value) = word
        .split_once('=')
        .ok_or(format!("{word}: not name=value"))?;
    let number = || number_in(value, 10);
    match name {
        "recipe" => case.recipe = unhex(value)?,
        "policy" => case.policy = unhex(value)?,
        "memory" => case.starts.push(Start {
            memory: unhex(value)?,
            room: 320,
            budget: 10_000,
        }),
        "room" => last_start(case)?.room = number()? as usize,
        "budget" => last_start(case)?.budget = number()? as u32,
        "report" => case.report = number()? as usize,
        "poison" => case.poison = number()?,
        "viewer" => case.viewer = Some(number()? as u8),
        _ => return Err(format!("{name}: no such word")),
    }
    Ok(())
}

pub fn to_case(words: &str) -> Result<Case, String> {
    let mut case = Case {
        recipe: Vec::new(),
        policy: Vec::new(),
        starts: Vec::new(),
        report: 12,
        viewer: None,
        poison: 1,
    };
    for word in words.split_whitespace() {
        take_word(&mut case, word)?;
    }
    let wanted = if case.viewer.is_some() { 2 } else { 1 };
    match case.starts.len() == wanted {
        true => Ok(case),
        false => Err(format!(
            "{wanted} memory wanted, {} given",
            case.starts.len()
        )),
    }
}

/// What a call left behind, for reading.
pub fn of_trace(trace: &Trace) -> String {
    format!(
        "number={} report={} memory={} room={}",
        trace.number,
        hex(&trace.report),
        beginning(&trace.memory),
        beginning(&trace.room)
    )
}

/// As many bytes as can be read at a glance.
fn beginning(bytes: &[u8]) -> String {
    match bytes.get(..60) {
        Some(first) => format!("{}... ({} bytes)", hex(first), bytes.len()),
        None => hex(bytes),
    }
}

/// The records of a small recipe, one a line, for reading.
pub fn listing(case: &Case) -> String {
    let Some(table) = RecipeTable::from_bytes(&case.recipe) else {
        return String::new();
    };
    if table.expressions.len() + table.statements.len() > 40 {
        return String::new();
    }
    let expressions = table.expressions.iter().enumerate();
    let expressions = expressions.map(|(own, record)| format!("  e{own} = {}\n", formula(record)));
    let statements = table.statements.iter().enumerate();
    let statements = statements.map(|(own, record)| format!("  s{own} = {}\n", deed(record)));
    expressions.chain(statements).collect()
}

fn formula(record: &ExpressionRecord) -> String {
    let ExpressionRecord {
        kind,
        operator,
        a,
        b,
    } = *record;
    let unary = ["-", "!", "abs "].get(usize::from(operator));
    let binary = ["+", "-", "*", "/", "%", "<", "<=", "==", "!="].get(usize::from(operator));
    match (kind, unary, binary) {
        (1, ..) => format!("{}", b as i32),
        (2, ..) => format!("v{a}"),
        (3, ..) => format!("c[e{a}]"),
        (4, Some(sign), _) => format!("{sign}e{a}"),
        (5, _, Some(sign)) => format!("e{a} {sign} e{b}"),
        _ => format!("malformed: kind {kind}, operator {operator}, a {a}, b {b}"),
    }
}

fn deed(record: &StatementRecord) -> String {
    let StatementRecord {
        kind,
        port,
        a,
        b,
        c,
    } = *record;
    match kind {
        0 => "skip".to_string(),
        1 => format!("v{a} := e{b}"),
        2 => format!("c[e{a}] := e{b}"),
        3 => format!("s{a}; s{b}"),
        4 => format!("if e{a} then s{b} else s{c}"),
        5 => format!("while e{a} do s{b}"),
        6 => format!("emit e{a} on port {port}"),
        _ => format!("malformed: kind {kind}, port {port}, a {a}, b {b}, c {c}"),
    }
}
