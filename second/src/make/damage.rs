//! Damage: a sound case is changed at one point, or at several to show the order of the checks.
//!
//! Damage works on the bytes, with the counts of the sound case at hand, so that a second damage still finds its
//! way after the first one has spoilt a header.

use super::random::Random;
use super::tables::{statement_names, ExpressionRecord, Names, StatementRecord};
use super::Case;

/// A case with the counts it had while it was sound.
pub struct Draft {
    pub case: Case,
    pub expressions: usize,
    pub statements: usize,
    pub variables: usize,
    pub tags: usize,
    pub ports: usize,
}

type Damage = fn(&mut Random, &mut Draft);

const DAMAGES: [(usize, Damage); 29] = [
    (3, recipe_short),
    (3, recipe_length),
    (2, recipe_counts_and_length),
    (2, recipe_longest),
    (4, recipe_mark),
    (4, recipe_version),
    (3, recipe_zero_bytes),
    (3, recipe_counts),
    (2, recipe_counts_with_length),
    (8, expression_malformed),
    (4, expression_field),
    (8, statement_malformed),
    (4, statement_field),
    (3, policy_short),
    (3, policy_length),
    (3, policy_header),
    (3, policy_counts_with_length),
    (4, policy_entry),
    (3, policy_clearance),
    (2, policy_one_join),
    (4, policy_two_joins),
    (4, policy_not_associative),
    (2, policy_least),
    (6, port),
    (4, memory_length),
    (6, memory_tag),
    (6, report_short),
    (3, noise),
    (2, swapped),
];

/// One damage, sometimes two or three.
pub fn damage(random: &mut Random, draft: &mut Draft) {
    let weights = DAMAGES.map(|(weight, _)| weight);
    let times = 1 + random.weighted(&[5, 4, 2]);
    for _ in 0..times {
        let (_, damage) = DAMAGES[random.weighted(&weights)];
        damage(random, draft);
    }
}

/// Some bytes of some buffer become others, or the buffer gets another length.
pub fn noise(random: &mut Random, draft: &mut Draft) {
    let case = &mut draft.case;
    let buffer = match random.below(3) {
        0 => &mut case.recipe,
        1 => &mut case.policy,
        _ => &mut case.starts[0].memory,
    };
    for _ in 0..random.between(1, 3) {
        if buffer.is_empty() {
            return;
        }
        let at = random.below(buffer.len());
        match random.below(6) {
            0 => buffer.truncate(at),
            1 => buffer.insert(at, random.byte()),
            2 => buffer[at] ^= 1 << random.below(8),
            3 => buffer[at] = buffer[at].wrapping_add(1),
            4 => buffer[at] = 0,
            _ => buffer[at] = random.byte(),
        }
    }
}

fn set_byte(bytes: &mut [u8], at: usize, value: u8) {
    if let Some(byte) = bytes.get_mut(at) {
        *byte = value;
    }
}

fn set_u16(bytes: &mut [u8], at: usize, value: u16) {
    for (offset, byte) in value.to_le_bytes().into_iter().enumerate() {
        set_byte(bytes, at + offset, byte);
    }
}

fn set_entry(bytes: &mut [u8], at: usize, entry: [u8; 8]) {
    for (offset, byte) in entry.into_iter().enumerate() {
        set_byte(bytes, at + offset, byte);
    }
}

/// Not this byte.
fn other_byte(random: &mut Random, byte: u8) -> u8 {
    match random.below(3) {
        0 => byte ^ (1 << random.below(8)),
        1 => byte.wrapping_add(1),
        _ => byte ^ (random.byte() | 1),
    }
}

/// A length that is not the one it was.
fn other_length(random: &mut Random, bytes: &mut Vec<u8>, unit: usize) {
    let by = random.pick(&[1, 1, unit, unit - 1, unit + 1, 2 * unit]);
    if random.chance(50) {
        bytes.truncate(bytes.len().saturating_sub(by));
    } else {
        let any = random.byte();
        bytes.resize(bytes.len() + by, random.pick(&[0, any]));
    }
}

// ---------------------------------------------------------------------------------------------- recipe header

fn recipe_short(random: &mut Random, draft: &mut Draft) {
    draft.case.recipe.truncate(random.below(16));
}

fn recipe_length(random: &mut Random, draft: &mut Draft) {
    other_length(random, &mut draft.case.recipe, 8);
}

/// Counts that are in range but not those of the bytes there are.
fn recipe_counts_and_length(random: &mut Random, draft: &mut Draft) {
    let (expressions, statements) = (draft.expressions, draft.statements);
    let recipe = &mut draft.case.recipe;
    match random.below(3) {
        0 => set_u16(recipe, 6, (expressions + 1) as u16),
        1 => set_u16(recipe, 8, (statements + 1) as u16),
        _ if statements > 1 => set_u16(recipe, 8, (statements - 1) as u16),
        _ => set_u16(recipe, 6, expressions.saturating_sub(1) as u16),
    }
}

/// The longest recipe there can be, and one byte more.
fn recipe_longest(random: &mut Random, draft: &mut Draft) {
    let length = random.pick(&[12_304, 12_305]);
    draft.case.recipe.resize(length, 0);
}

fn recipe_mark(random: &mut Random, draft: &mut Draft) {
    let recipe = &mut draft.case.recipe;
    match random.below(4) {
        0 => set_byte(recipe, 2, b'P'),
        1 => set_byte(recipe, random.below(3), b' '),
        _ => {
            let at = random.below(3);
            let byte = other_byte(random, b"RJR"[at]);
            set_byte(recipe, at, byte);
        }
    }
}

fn recipe_version(random: &mut Random, draft: &mut Draft) {
    let version = random.pick(&[0, 2, 256, 257, 513, 0x8001, 0xFFFF]);
    set_u16(&mut draft.case.recipe, 3, version);
}

fn recipe_zero_bytes(random: &mut Random, draft: &mut Draft) {
    let at = random.pick(&[5, 14, 15]);
    let byte = other_byte(random, 0);
    set_byte(&mut draft.case.recipe, at, byte);
}

/// Counts over their limits, among them such that only look small in their low byte.
fn recipe_counts(random: &mut Random, draft: &mut Draft) {
    let (at, limit) = random.pick(&[(6, 1024), (8, 512), (10, 64), (12, 1024)]);
    let value = match random.below(5) {
        0 if at == 8 => 0,
        0 | 1 => limit + 1,
        2 => 0x8000 | limit,
        3 => 0xFFFF,
        _ => limit + random.between(1, 2000) as u16,
    };
    set_u16(&mut draft.case.recipe, at, value);
}

/// Counts over their limits, with as many records as they say.
fn recipe_counts_with_length(random: &mut Random, draft: &mut Draft) {
    let (mut expressions, mut statements) = (draft.expressions, draft.statements);
    match random.below(3) {
        0 => expressions = 1025,
        1 => statements = 513,
        _ => statements = 0,
    }
    let recipe = &mut draft.case.recipe;
    recipe.resize(16 + 8 * (expressions + statements), 0);
    set_u16(recipe, 6, expressions as u16);
    set_u16(recipe, 8, statements as u16);
}

// ---------------------------------------------------------------------------------------------- records

/// A sound expression with this number, which is not 0 if it has operands.
fn sound_expression(random: &mut Random, own: usize, variables: usize) -> ExpressionRecord {
    let mut record = ExpressionRecord {
        kind: 1,
        operator: 0,
        a: 0,
        b: random.next() as u32,
    };
    let kind = random.between(1, 5) as u8;
    if kind == 1 || (kind == 2 && variables == 0) || (kind > 2 && own == 0) {
        return record;
    }
    record.kind = kind;
    record.b = 0;
    record.a = random.below(if kind == 2 { variables } else { own }) as u16;
    if kind == 4 {
        record.operator = random.below(3) as u8;
    }
    if kind == 5 {
        record.operator = random.below(9) as u8;
        record.b = random.below(own) as u32;
    }
    record
}

/// One field becomes wrong. Which fields can be depends on the kind.
fn spoil_expression(random: &mut Random, record: &mut ExpressionRecord, own: usize, limit: usize) {
    let own = own as u16;
    let unused = |random: &mut Random| random.pick(&[1, 256, 0x8000, 0xFFFF]);
    let above = [own, own + 1, own | 0x8000, 0xFFFF];
    match (random.below(4), record.kind) {
        (0, _) => record.kind = random.pick(&[0, 6, 7, 8, 128, 255, record.kind | 0x40]),
        (1, 1..=3) => record.operator = random.pick(&[1, 2, 128, 255]),
        (1, 4) => record.operator = random.pick(&[3, 4, 128, 255]),
        (1, _) => record.operator = random.pick(&[9, 10, 128, 255]),
        (2, 1) => record.a = unused(random),
        (2, 2) => record.a = random.pick(&[limit as u16, limit as u16 + 1, 256, 0xFFFF]),
        (2, _) => record.a = random.pick(&above),
        (_, 1) => record.a = 1 << random.below(16),
        (_, 5) => {
            let high = record.b | 1 << random.between(16, 31);
            record.b = random.pick(&[own.into(), u32::from(own) + 1, high, 65536, u32::MAX]);
        }
        _ => record.b = 1 << random.below(32),
    }
}

fn expression_malformed(random: &mut Random, draft: &mut Draft) {
    if draft.expressions == 0 {
        return;
    }
    let own = random.below(draft.expressions);
    let mut record = sound_expression(random, own, draft.variables);
    spoil_expression(random, &mut record, own, draft.variables);
    set_entry(&mut draft.case.recipe, 16 + 8 * own, record.to_bytes());
}

/// One byte of an expression as it stands; the change may leave it sound.
fn expression_field(random: &mut Random, draft: &mut Draft) {
    if draft.expressions > 0 {
        let at = 16 + random.below(8 * draft.expressions);
        change_byte(random, &mut draft.case.recipe, at);
    }
}

fn change_byte(random: &mut Random, bytes: &mut [u8], at: usize) {
    if let Some(&old) = bytes.get(at) {
        bytes[at] = other_byte(random, old);
    }
}

/// A sound statement with this number, as far as the counts allow one of the kind drawn.
fn sound_statement(random: &mut Random, own: usize, draft: &Draft) -> StatementRecord {
    let mut record = StatementRecord {
        kind: random.below(7) as u8,
        port: 0,
        a: 0,
        b: 0,
        c: 0,
    };
    let expression = |random: &mut Random| random.below(draft.expressions.max(1)) as u16;
    let lower = |random: &mut Random| random.below(own.max(1)) as u16;
    match record.kind {
        1 => {
            record.a = random.below(draft.variables.max(1)) as u16;
            record.b = expression(random);
        }
        2 => (record.a, record.b) = (expression(random), expression(random)),
        3 => (record.a, record.b) = (lower(random), lower(random)),
        4 => {
            record.a = expression(random);
            (record.b, record.c) = (lower(random), lower(random));
        }
        5 => (record.a, record.b) = (expression(random), lower(random)),
        6 => {
            record.a = expression(random);
            record.port = random.below(draft.ports.max(1)) as u8;
        }
        _ => {}
    }
    record
}

fn spoil_statement(random: &mut Random, record: &mut StatementRecord, own: usize, draft: &Draft) {
    match random.below(5) {
        0 => record.kind = random.pick(&[7, 8, 128, 255, record.kind | 0x10]),
        1 if record.kind != 6 => record.port = random.pick(&[1, 2, 128, 255]),
        _ => {
            let field = random.below(3);
            let limit = match statement_names(record.kind)[field] {
                Names::Nothing => 1,
                Names::Variable => draft.variables,
                Names::Expression => draft.expressions,
                Names::Statement => own,
            };
            let bad = [
                limit,
                limit,
                limit + 1,
                limit | 0x8000,
                limit | 0x100,
                0xFFFF,
            ];
            let bad = random.pick(&bad).max(limit) as u16;
            *[&mut record.a, &mut record.b, &mut record.c][field] = bad;
        }
    }
}

fn statement_at(draft: &Draft, own: usize) -> usize {
    16 + 8 * (draft.expressions + own)
}

fn statement_malformed(random: &mut Random, draft: &mut Draft) {
    let own = random.below(draft.statements);
    let mut record = sound_statement(random, own, draft);
    spoil_statement(random, &mut record, own, draft);
    let at = statement_at(draft, own);
    set_entry(&mut draft.case.recipe, at, record.to_bytes());
}

/// One byte of a statement as it stands; the change may leave it sound.
fn statement_field(random: &mut Random, draft: &mut Draft) {
    let at = statement_at(draft, 0) + random.below(8 * draft.statements);
    change_byte(random, &mut draft.case.recipe, at);
}

/// An emit on a port that is not there, reached or not.
fn port(random: &mut Random, draft: &mut Draft) {
    if draft.expressions == 0 {
        return;
    }
    for _ in 0..random.between(1, 3) {
        let own = random.below(draft.statements);
        let ports = draft.ports as u8;
        let record = StatementRecord {
            kind: 6,
            port: random.pick(&[ports, ports, ports + 1, 16, 128 | ports, 255]),
            a: random.below(draft.expressions) as u16,
            b: 0,
            c: 0,
        };
        let at = statement_at(draft, own);
        set_entry(&mut draft.case.recipe, at, record.to_bytes());
    }
}

// ---------------------------------------------------------------------------------------------- policy

fn policy_short(random: &mut Random, draft: &mut Draft) {
    draft.case.policy.truncate(random.below(8));
}

fn policy_length(random: &mut Random, draft: &mut Draft) {
    let unit = random.pick(&[draft.tags.max(2), 16]);
    other_length(random, &mut draft.case.policy, unit);
}

fn policy_header(random: &mut Random, draft: &mut Draft) {
    let at = random.below(8);
    change_byte(random, &mut draft.case.policy, at);
    if random.chance(20) {
        set_byte(&mut draft.case.policy, 2, b'R');
    }
}

/// Counts out of range, with as many entries as they say.
fn policy_counts_with_length(random: &mut Random, draft: &mut Draft) {
    let (mut tags, mut ports) = (draft.tags, draft.ports);
    match random.below(4) {
        0 => tags = 0,
        1 => tags = 17,
        2 => ports = 17,
        _ => ports = 255,
    }
    let policy = &mut draft.case.policy;
    policy.resize(8 + tags * tags + ports, 0);
    set_byte(policy, 6, tags as u8);
    set_byte(policy, 7, ports as u8);
}

fn not_a_tag(random: &mut Random, tags: usize) -> u8 {
    let tags = tags as u8;
    random.pick(&[tags, tags, tags + 1, 16, 16 + tags, 128, 255])
}

fn policy_entry(random: &mut Random, draft: &mut Draft) {
    for _ in 0..random.between(1, 3) {
        let at = 8 + random.below(draft.tags * draft.tags);
        let bad = not_a_tag(random, draft.tags);
        set_byte(&mut draft.case.policy, at, bad);
    }
}

fn policy_clearance(random: &mut Random, draft: &mut Draft) {
    if draft.ports > 0 {
        let at = 8 + draft.tags * draft.tags + random.below(draft.ports);
        let bad = not_a_tag(random, draft.tags);
        set_byte(&mut draft.case.policy, at, bad);
    }
}

fn set_join(draft: &mut Draft, row: usize, column: usize, tag: usize) {
    let at = 8 + row * draft.tags + column;
    set_byte(&mut draft.case.policy, at, tag as u8);
}

/// One join becomes another tag: not commutative, or not (t,t) = t.
fn policy_one_join(random: &mut Random, draft: &mut Draft) {
    let tags = draft.tags;
    let (row, column) = (random.below(tags), random.below(tags));
    set_join(draft, row, column, random.below(tags));
}

/// Both orders change alike, so that only the other laws can break, if any does.
fn policy_two_joins(random: &mut Random, draft: &mut Draft) {
    let tags = draft.tags;
    let (row, column, tag) = (random.below(tags), random.below(tags), random.below(tags));
    set_join(draft, row, column, tag);
    set_join(draft, column, row, tag);
}

/// Three tags that join in a ring: every law holds but associativity.
fn policy_not_associative(random: &mut Random, draft: &mut Draft) {
    let tags = draft.tags;
    if tags < 4 {
        return;
    }
    let mut chosen: Vec<usize> = (1..tags).collect();
    random.shuffle(&mut chosen);
    for ring in 0..3 {
        let (one, next) = (chosen[ring], chosen[(ring + 1) % 3]);
        set_join(draft, one, next, next);
        set_join(draft, next, one, next);
    }
}

/// Tag 0 is no longer the least: it changes places with another.
fn policy_least(random: &mut Random, draft: &mut Draft) {
    let tags = draft.tags;
    if tags < 2 || draft.case.policy.len() < 8 + tags * tags {
        return;
    }
    let other = random.between(1, tags - 1);
    let swap = |tag: usize| match tag {
        0 => other,
        _ if tag == other => 0,
        _ => tag,
    };
    let old = draft.case.policy.clone();
    for row in 0..tags {
        for column in 0..tags {
            let join = old[8 + row * tags + column];
            set_join(draft, swap(row), swap(column), swap(join.into()));
        }
    }
}

// ---------------------------------------------------------------------------------------------- memory, report

fn memory_length(random: &mut Random, draft: &mut Draft) {
    other_length(random, &mut draft.case.starts[0].memory, 5);
}

fn memory_tag(random: &mut Random, draft: &mut Draft) {
    let memory = &mut draft.case.starts[0].memory;
    let places = memory.len() / 5;
    if places == 0 {
        return;
    }
    for _ in 0..random.between(1, 3) {
        let at = 5 * random.below(places) + 4;
        let bad = not_a_tag(random, draft.tags);
        set_byte(memory, at, bad);
    }
}

fn report_short(random: &mut Random, draft: &mut Draft) {
    draft.case.report = random.pick(&[0, 1, 4, 8, 10, 11, 11]);
}

/// Recipe and policy in each other's place.
fn swapped(_: &mut Random, draft: &mut Draft) {
    std::mem::swap(&mut draft.case.recipe, &mut draft.case.policy);
}
