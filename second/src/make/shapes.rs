//! Sound recipes made to show one point of document 01 each. Chance alone would come to most of them too seldom.

use super::policies;
use super::programs::{any_value, EDGES};
use super::random::Random;
use super::stage::Stage;
use super::tables::{
    Place, PolicyTable, RecipeTable, ABSOLUTE, ADD, DIVIDE, EQUAL, LESS, NEGATE, NOT, REMAINDER,
};
use super::Plan;
use crate::machine::Tag;

type Shape = fn(&mut Random) -> Plan;

/// Each shape with its weight; the large ones are rare because they are slow.
const SHAPES: [(usize, Shape); 24] = [
    (20, countdown),
    (40, arithmetic),
    (30, division),
    (40, binary_faults),
    (40, store_faults),
    (30, emit_faults),
    (30, assign_faults),
    (30, test_faults),
    (40, tag_rules),
    (60, probes),
    (40, raised_tests),
    (30, hidden_records),
    (30, hidden_indexes),
    (30, index_edges),
    (30, shared_statements),
    (20, many_ports),
    (20, filled_cells),
    (20, empty),
    (30, spread),
    (12, deep),
    (4, doubled),
    (5, full_sizes),
    (3, house_budget),
    (1, long_count),
];

pub fn shape(random: &mut Random) -> Plan {
    let weights = SHAPES.map(|(weight, _)| weight);
    let (_, shape) = SHAPES[random.weighted(&weights)];
    shape(random)
}

fn any_tag(random: &mut Random, policy: &PolicyTable) -> Tag {
    random.below(policy.tags) as Tag
}

/// An expression that merely has this value, as a constant or (with some tag) as a variable.
fn plain(random: &mut Random, stage: &mut Stage, value: i32) -> u16 {
    if random.chance(50) {
        return stage.table.constant(value);
    }
    let tag = match random.chance(70) {
        true => 0,
        false => any_tag(random, &stage.policy),
    };
    stage.reading(value, tag)
}

/// The value goes to a variable, a cell or a port, whichever is drawn.
fn show(random: &mut Random, stage: &mut Stage, value: u16) -> u16 {
    match random.below(3) {
        0 => {
            let tag = any_tag(random, &stage.policy);
            let variable = stage.variable(-99, tag);
            stage.table.assign(variable, value)
        }
        1 => {
            let tag = any_tag(random, &stage.policy);
            let index = stage.cell(-99, tag);
            let index = stage.table.constant(index);
            stage.table.store(index, value)
        }
        _ if stage.policy.clearances.is_empty() => stage.table.skip(),
        _ => {
            let port = random.below(stage.policy.clearances.len()) as u8;
            stage.table.emit(port, value)
        }
    }
}

fn countdown(random: &mut Random) -> Plan {
    let policy = match random.chance(50) {
        true => policies::two_tags(),
        false => policies::policy(random),
    };
    let tag = any_tag(random, &policy);
    let mut stage = Stage::new(policy);
    let count = stage.variable(random.below(9) as i32, tag);
    let test = stage.table.variable(count);
    let body = stage.table.count_down(count);
    stage.table.repeat(test, body);
    stage.finish()
}

// ---------------------------------------------------------------------------------------------- arithmetic

fn arithmetic(random: &mut Random) -> Plan {
    let mut stage = Stage::new(policies::policy(random));
    let mut statements = Vec::new();
    for _ in 0..random.between(1, 5) {
        let (left, right) = (random.pick(&EDGES), random.pick(&EDGES));
        let value = if random.chance(30) {
            let operand = random.pick(&[left, right, i32::MIN]);
            let operand = plain(random, &mut stage, operand);
            let operator = random.pick(&[NEGATE, NOT, ABSOLUTE]);
            stage.table.unary(operator, operand)
        } else {
            let left = plain(random, &mut stage, left);
            let right = plain(random, &mut stage, right);
            stage.table.binary(random.below(9) as u8, left, right)
        };
        statements.push(show(random, &mut stage, value));
    }
    stage.table.list(&statements);
    stage.finish()
}

/// Signs of quotients and remainders, the divisor 0 and the lowest number by -1.
fn division(random: &mut Random) -> Plan {
    let lefts = [i32::MIN, i32::MIN + 1, i32::MAX, -8, -7, -1, 0, 1, 7, 8];
    let rights = [-1, -1, 1, 2, -2, 3, -3, 0, i32::MIN, i32::MAX, i32::MIN + 1];
    let mut stage = Stage::new(policies::policy(random));
    let mut statements = Vec::new();
    for _ in 0..random.between(1, 4) {
        let (left, right) = match random.chance(20) {
            true => (i32::MIN, -1),
            false => (random.pick(&lefts), random.pick(&rights)),
        };
        let left = plain(random, &mut stage, left);
        let right = plain(random, &mut stage, right);
        let operator = random.pick(&[DIVIDE, REMAINDER]);
        let value = stage.table.binary(operator, left, right);
        statements.push(show(random, &mut stage, value));
    }
    stage.table.list(&statements);
    stage.finish()
}

// ---------------------------------------------------------------------------------------------- order of faults

/// An expression that is fine, ends the run with 5, or ends it with 6.
fn maybe_faulty(random: &mut Random, stage: &mut Stage) -> u16 {
    match random.weighted(&[3, 1, 1]) {
        0 => {
            let value = random.below(4) as i32 - 1;
            plain(random, stage, value)
        }
        1 => {
            let index = random.pick(&[-1, 1024, 65536, i32::MIN, i32::MAX]);
            let index = plain(random, stage, index);
            stage.table.cell(index)
        }
        _ => {
            let left = plain(random, stage, 5);
            let zero = plain(random, stage, 0);
            let operator = random.pick(&[DIVIDE, REMAINDER]);
            stage.table.binary(operator, left, zero)
        }
    }
}

/// Left, right, divisor: the number shows which fault came first, wherever the expression stands.
fn binary_faults(random: &mut Random) -> Plan {
    let mut stage = Stage::new(policies::policy(random));
    let left = maybe_faulty(random, &mut stage);
    let right = maybe_faulty(random, &mut stage);
    let operator = random.pick(&[ADD, DIVIDE, REMAINDER, LESS, EQUAL]);
    let value = stage.table.binary(operator, left, right);
    let first = stage.table.skip();
    match random.below(6) {
        0 => {
            let variable = stage.variable(3, 0);
            stage.table.assign(variable, value);
        }
        1 => {
            stage.cell(4, 0);
            let other = maybe_faulty(random, &mut stage);
            stage.table.store(value, other);
        }
        2 => {
            stage.cell(4, 0);
            let index = stage.table.constant(0);
            stage.table.store(index, value);
        }
        3 => {
            stage.table.branch(value, first, first);
        }
        4 => {
            stage.table.repeat(value, first);
        }
        _ => {
            show(random, &mut stage, value);
        }
    }
    let last = stage.table.statements.len() as u16 - 1;
    if random.chance(50) {
        stage.table.then(first, last);
    }
    stage.finish()
}

/// The statement inside an if whose test has some tag.
fn under_some_test(random: &mut Random, stage: &mut Stage, statement: u16) {
    if random.chance(30) {
        return;
    }
    let other = match random.chance(50) {
        true => statement,
        false => stage.table.skip(),
    };
    let tag = any_tag(random, &stage.policy);
    let test = stage.reading(i32::from(random.chance(80)), tag);
    stage.table.branch(test, statement, other);
}

/// Index, value, range, tag.
fn store_faults(random: &mut Random) -> Plan {
    let mut stage = Stage::new(policies::policy(random));
    for _ in 0..random.between(1, 3) {
        let tag = any_tag(random, &stage.policy);
        stage.cell(any_value(random), tag);
    }
    let index = match random.below(3) {
        0 => maybe_faulty(random, &mut stage),
        _ => {
            let tag = any_tag(random, &stage.policy);
            stage.reading(random.below(5) as i32 - 1, tag)
        }
    };
    let value = maybe_faulty(random, &mut stage);
    let store = stage.table.store(index, value);
    under_some_test(random, &mut stage, store);
    stage.finish()
}

/// Value, tag, room.
fn emit_faults(random: &mut Random) -> Plan {
    let mut stage = Stage::new(policies::hiding_policy(random));
    let port = random.below(stage.policy.clearances.len()) as u8;
    let free = stage.table.constant(17);
    let first = stage.table.emit(0, free);
    let value = match random.chance(40) {
        true => maybe_faulty(random, &mut stage),
        false => {
            let tag = any_tag(random, &stage.policy);
            stage.reading(any_value(random), tag)
        }
    };
    let emit = stage.table.emit(port, value);
    under_some_test(random, &mut stage, emit);
    let last = stage.table.statements.len() as u16 - 1;
    stage.table.then(first, last);
    let mut plan = stage.finish();
    plan.room = Some(random.between(0, 12));
    plan
}

/// Value, tag.
fn assign_faults(random: &mut Random) -> Plan {
    let mut stage = Stage::new(policies::policy(random));
    let tag = any_tag(random, &stage.policy);
    let variable = stage.variable(3, tag);
    let value = maybe_faulty(random, &mut stage);
    let assign = stage.table.assign(variable, value);
    under_some_test(random, &mut stage, assign);
    stage.finish()
}

/// Tests that end the run, at once or when they are repeated: the place is the if or the while.
fn test_faults(random: &mut Random) -> Plan {
    let mut stage = Stage::new(policies::policy(random));
    let tag = any_tag(random, &stage.policy);
    let count = stage.variable(random.below(4) as i32, tag);
    let old = stage.table.variable(count);
    let test = if random.chance(50) {
        let left = stage.table.constant(100);
        let operator = random.pick(&[DIVIDE, REMAINDER]);
        stage.table.binary(operator, left, old)
    } else {
        for _ in 0..3 {
            let tag = any_tag(random, &stage.policy);
            stage.cell(1, tag);
        }
        stage.table.cell(old)
    };
    let body = stage.table.count_down(count);
    let tested = match random.below(4) {
        0 => stage.table.branch(test, body, body),
        _ => stage.table.repeat(test, body),
    };
    if random.chance(60) {
        let after = stage.table.skip();
        stage.table.then(tested, after);
    }
    stage.finish()
}

// ---------------------------------------------------------------------------------------------- tags

/// One assign, store or emit under a test, with any tags on everything.
fn tag_rules(random: &mut Random) -> Plan {
    let mut stage = Stage::new(policies::hiding_policy(random));
    let mut tags = [0; 5];
    tags.fill_with(|| any_tag(random, &stage.policy));
    let [old, value, index, test, cell] = tags;
    let value = stage.reading(any_value(random), value);
    let target = stage.variable(1, old);
    let at = stage.cell(2, old);
    let statement = match random.below(4) {
        0 => stage.table.assign(target, value),
        1 => {
            let index = stage.reading(at, index);
            stage.table.store(index, value)
        }
        2 => {
            let at = stage.cell(3, cell);
            let index = stage.reading(at, index);
            let loaded = stage.table.cell(index);
            let sum = stage.table.binary(ADD, loaded, value);
            stage.table.assign(target, sum)
        }
        _ => {
            let port = random.below(stage.policy.clearances.len()) as u8;
            stage.table.emit(port, value)
        }
    };
    let test = stage.reading(1, test);
    stage.table.branch(test, statement, statement);
    stage.finish()
}

/// A write or an emission that a wrong branch tag would show: the old tag is the branch tag itself, so one too
/// high stops, and one too low is seen in the new tag.
fn probe(random: &mut Random, stage: &mut Stage, branch: Tag) -> u16 {
    let any = any_tag(random, &stage.policy);
    let old = match random.weighted(&[12, 6, 1]) {
        0 => branch,
        1 => stage.policy.join(branch, any),
        _ => any,
    };
    let value = match random.chance(75) {
        true => stage.table.constant(5),
        false => {
            let tag = any_tag(random, &stage.policy);
            stage.reading(6, tag)
        }
    };
    if stage.variable_count() > 56 {
        return stage.table.skip();
    }
    match random.weighted(&[5, 3, 1]) {
        0 => {
            let variable = stage.variable(0, old);
            stage.table.assign(variable, value)
        }
        1 => {
            let index = stage.cell(0, old);
            let index = stage.table.constant(index);
            stage.table.store(index, value)
        }
        _ if stage.policy.clearances.is_empty() => stage.table.skip(),
        _ => {
            let clearances = stage.policy.clearances.clone();
            let cleared = clearances
                .iter()
                .position(|&clearance| stage.policy.under(branch, clearance));
            let port = cleared.unwrap_or(0) as u8;
            let constant = stage.table.constant(8);
            stage.table.emit(port, constant)
        }
    }
}

/// Ifs and whiles in each other, probes before, inside and after each.
fn probes(random: &mut Random) -> Plan {
    let mut stage = Stage::new(policies::policy(random));
    let depth = random.between(1, 3);
    nest(random, &mut stage, depth, 0);
    stage.finish()
}

fn nest(random: &mut Random, stage: &mut Stage, depth: usize, branch: Tag) -> u16 {
    let mut statements = Vec::new();
    for _ in 0..random.between(1, 3) {
        statements.push(match depth == 0 || random.chance(35) {
            true => probe(random, stage, branch),
            false => control(random, stage, depth - 1, branch),
        });
    }
    stage.table.list(&statements)
}

fn control(random: &mut Random, stage: &mut Stage, depth: usize, branch: Tag) -> u16 {
    if stage.variable_count() > 50 {
        return stage.table.skip();
    }
    let drawn = any_tag(random, &stage.policy);
    let tag = stage.policy.join(branch, drawn);
    if random.chance(55) {
        let test = stage.reading(random.below(2) as i32, drawn);
        let yes = nest(random, stage, depth, tag);
        let no = nest(random, stage, depth, tag);
        return stage.table.branch(test, yes, no);
    }
    let count = stage.variable(random.below(4) as i32, tag);
    let test = stage.table.variable(count);
    let inside = nest(random, stage, depth, tag);
    let less = stage.table.count_down(count);
    let body = stage.table.then(inside, less);
    stage.table.repeat(test, body)
}

/// Loops whose test gets a higher tag from their own body, with probes inside and after.
fn raised_tests(random: &mut Random) -> Plan {
    let mut stage = Stage::new(policies::hiding_policy(random));
    let (low, high) = (
        any_tag(random, &stage.policy),
        any_tag(random, &stage.policy),
    );
    let both = stage.policy.join(low, high);
    let flag = stage.variable(1, random.pick(&[low, 0]));
    let source = stage.variable(random.below(3) as i32, random.pick(&[high, both]));
    let test = stage.table.variable(flag);
    let expected = random.pick(&[low, both]);
    let inside = probe(random, &mut stage, expected);
    let old = stage.table.variable(source);
    let raise = stage.table.assign(flag, old);
    let less = stage.table.count_down(source);
    let mut body = vec![inside, raise, less];
    random.shuffle(&mut body);
    let body = stage.table.list(&body);
    let repeat = stage.table.repeat(test, body);
    let after = probe(random, &mut stage, 0);
    let whole = stage.table.then(repeat, after);
    if random.chance(40) {
        let test = stage.reading(1, low);
        let again = probe(random, &mut stage, low);
        let whole = stage.table.then(whole, again);
        stage.table.branch(test, whole, again);
    }
    stage.finish()
}

/// Records on ports of every clearance, in branches of every tag, in a room that some of them fill.
fn hidden_records(random: &mut Random) -> Plan {
    let mut stage = Stage::new(policies::hiding_policy(random));
    let ports = stage.policy.clearances.len();
    let mut statements = Vec::new();
    for _ in 0..random.between(2, 6) {
        let port = random.below(ports) as u8;
        let clearance = stage.policy.clearances[usize::from(port)];
        let value = stage.reading(any_value(random), random.pick(&[0, clearance]));
        let emit = stage.table.emit(port, value);
        let test = stage.reading(random.below(2) as i32, random.pick(&[0, clearance]));
        let skip = stage.table.skip();
        statements.push(stage.table.branch(test, emit, skip));
    }
    stage.table.list(&statements);
    let mut plan = stage.finish();
    plan.room = Some(random.between(0, 26));
    plan
}

/// Loads and stores through indexes with tags, into cells that mostly allow it.
fn hidden_indexes(random: &mut Random) -> Plan {
    let mut stage = Stage::new(policies::hiding_policy(random));
    let tag = any_tag(random, &stage.policy);
    let cells = random.between(1, 4);
    for _ in 0..cells {
        let any = any_tag(random, &stage.policy);
        let any = stage.policy.join(tag, any);
        stage.cell(any_value(random), random.pick(&[tag, tag, any, 0]));
    }
    let mut statements = Vec::new();
    for _ in 0..random.between(1, 4) {
        let index = stage.reading(random.below(cells) as i32, random.pick(&[tag, tag, 0]));
        let statement = if random.chance(55) {
            let value = plain(random, &mut stage, 9);
            stage.table.store(index, value)
        } else {
            let loaded = stage.table.cell(index);
            show(random, &mut stage, loaded)
        };
        statements.push(statement);
    }
    stage.table.list(&statements);
    stage.finish()
}

/// Indexes at and around both ends of the cells, and such that a narrow type would take for others.
fn index_edges(random: &mut Random) -> Plan {
    let mut stage = Stage::new(policies::policy(random));
    let cells = random.below(5) as i32;
    for value in 0..cells {
        let tag = any_tag(random, &stage.policy);
        stage.cell(value + 10, tag);
    }
    let index = random.pick(&[
        -1,
        0,
        cells - 1,
        cells,
        cells + 1,
        256,
        65536,
        65536 + cells - 1,
        i32::MAX,
        i32::MIN,
        -cells,
    ]);
    let index = plain(random, &mut stage, index);
    if random.chance(50) {
        let loaded = stage.table.cell(index);
        show(random, &mut stage, loaded);
    } else {
        let value = plain(random, &mut stage, 77);
        stage.table.store(index, value);
    }
    stage.finish()
}

// ---------------------------------------------------------------------------------------------- sharing, ports, cells

/// One write, reached from several parents with several branch tags.
fn shared_statements(random: &mut Random) -> Plan {
    let mut stage = Stage::new(policies::hiding_policy(random));
    let tag = any_tag(random, &stage.policy);
    let old = random.pick(&[tag, tag, 0]);
    let counter = stage.variable(0, old);
    let (read, one) = (stage.table.variable(counter), stage.table.constant(1));
    let more = stage.table.binary(ADD, read, one);
    let shared = stage.table.assign(counter, more);
    let mut statements = vec![shared];
    for _ in 0..random.between(1, 5) {
        let other = random.pick(&statements);
        let test = stage.reading(random.below(2) as i32, random.pick(&[0, tag]));
        statements.push(match random.below(3) {
            0 => stage.table.branch(test, shared, other),
            1 => stage.table.then(other, shared),
            _ => stage.table.branch(test, other, other),
        });
    }
    stage.finish()
}

/// Ports up to the highest, each with its own clearance.
fn many_ports(random: &mut Random) -> Plan {
    let mut policy = policies::hiding_policy(random);
    let ports = random.between(10, 16);
    policy.clearances = (0..ports).map(|_| any_tag(random, &policy)).collect();
    let mut stage = Stage::new(policy);
    let mut statements = Vec::new();
    for port in 0..ports {
        let clearance = stage.policy.clearances[port];
        let tag = match random.chance(92) {
            true => clearance,
            false => any_tag(random, &stage.policy),
        };
        let value = stage.reading(port as i32 * 1_000_003, tag);
        statements.push(stage.table.emit(port as u8, value));
    }
    random.shuffle(&mut statements);
    stage.table.list(&statements);
    stage.finish()
}

/// A loop over all cells, each written from the one before.
fn filled_cells(random: &mut Random) -> Plan {
    let mut stage = Stage::new(policies::policy(random));
    let tag = any_tag(random, &stage.policy);
    let cells = random.between(2, 20) as i32;
    for value in 0..cells {
        stage.cell(value * 7 - 3, tag);
    }
    let index = stage.variable(0, tag);
    let at = stage.table.variable(index);
    let one = stage.table.constant(1);
    let next = stage.table.binary(ADD, at, one);
    let loaded = stage.table.cell(at);
    let value = stage.table.binary(random.below(9) as u8, loaded, next);
    let store = stage.table.store(next, value);
    let advance = stage.table.assign(index, next);
    let body = stage.table.then(store, advance);
    let last = stage.table.constant(cells - i32::from(random.chance(90)));
    let test = stage.table.binary(LESS, at, last);
    stage.table.repeat(test, body);
    stage.finish()
}

// ---------------------------------------------------------------------------------------------- sizes

/// No variables, no cells, often no expressions: all that is left are skips and the empty memory.
fn empty(random: &mut Random) -> Plan {
    let mut stage = Stage::new(policies::policy(random));
    let test = random.chance(50).then(|| {
        let value = random.below(3) as i32;
        stage.table.constant(value)
    });
    let mut last = stage.table.skip();
    for _ in 0..random.below(6) {
        let other = random.below(usize::from(last) + 1) as u16;
        last = match test {
            Some(test) if random.chance(40) => stage.table.branch(test, other, last),
            Some(test) if random.chance(10) => stage.table.repeat(test, last),
            _ => stage.table.then(last, other),
        };
    }
    if let Some(test) = test.filter(|_| random.chance(20)) {
        let loaded = stage.table.cell(test);
        stage.table.branch(loaded, last, last);
    }
    stage.finish()
}

/// An expression of exactly this spread. Every other one made on the way is smaller.
fn expression_of_spread(random: &mut Random, table: &mut RecipeTable, spread: usize) -> u16 {
    if spread == 1 {
        return table.constant(1);
    }
    let left = match random.below(4) {
        0 => 0,
        1 => (spread - 1) / 2,
        _ => random.below(spread - 1),
    };
    // No operand may be over the limit itself.
    let left = left.max((spread - 1).saturating_sub(256)).min(256);
    let right = spread - 1 - left;
    let right = expression_of_spread(random, table, right);
    match left {
        0 if random.chance(50) => table.cell(right),
        0 => table.unary(random.below(3) as u8, right),
        _ if left == spread - 1 - left => table.binary(ADD, right, right),
        _ => {
            let left = expression_of_spread(random, table, left);
            table.binary(random.pick(&[ADD, LESS, EQUAL]), left, right)
        }
    }
}

/// Spreads at the limit and over it, in chains, doublings and anything between.
fn spread(random: &mut Random) -> Plan {
    let mut stage = Stage::new(policies::policy(random));
    let spread = random.pick(&[254, 255, 256, 256, 257, 257, 258, 511, 512, 513]);
    match random.below(4) {
        0 => chain_of_spread(random, &mut stage.table, spread),
        // A machine that counts the spread without its limit would never come back from the long ones.
        1 => doubled_spread(&mut stage.table, random.pick(&[6, 7, 7, 8, 9, 60, 1000])),
        _ => {
            expression_of_spread(random, &mut stage.table, spread);
        }
    }
    // Room for damage after the first refusal there is.
    for _ in 0..random.pick(&[0, 1, 2, 20]) {
        stage.table.constant(2);
    }
    let whole = random.below(stage.table.expressions.len()) as u16;
    show(random, &mut stage, whole);
    stage.finish()
}

/// Each expression is one more than its predecessor, by an operator or by an index.
fn chain_of_spread(random: &mut Random, table: &mut RecipeTable, spread: usize) {
    let cells = random.pick(&[0, 0, 50, 100]);
    let mut last = table.constant(3);
    for _ in 1..spread {
        last = match random.chance(cells) {
            true => table.cell(last),
            false => table.unary(NEGATE, last),
        };
    }
}

/// Each expression adds its predecessor to itself.
fn doubled_spread(table: &mut RecipeTable, times: usize) {
    let mut last = table.constant(1);
    for _ in 0..times {
        last = table.binary(ADD, last, last);
    }
}

/// Statements nested as deep as their number allows, often the largest number there can be.
fn deep(random: &mut Random) -> Plan {
    let mut stage = Stage::new(policies::policy(random));
    let count = random.pick(&[512, 512, 511, 256, 64, 40]);
    let top = stage.policy.top();
    let test = stage.reading(1, random.pick(&[0, top]));
    let flag = stage.variable(1, top);
    let (read, zero) = (stage.table.variable(flag), stage.table.constant(0));
    let bottom = stage.table.assign(flag, zero);
    let kind = random.below(5);
    for last in bottom..count as u16 - 1 {
        match if kind < 4 { kind } else { random.below(4) } {
            0 => stage.table.then(last, bottom),
            1 => stage.table.then(bottom, last),
            2 => stage.table.branch(test, last, bottom),
            _ => stage.table.repeat(read, last),
        };
    }
    stage.finish()
}

/// Then-statements that name one statement twice: few records, more steps than any budget.
fn doubled(random: &mut Random) -> Plan {
    let mut stage = Stage::new(policies::policy(random));
    let counter = stage.variable(0, 0);
    let (read, one) = (stage.table.variable(counter), stage.table.constant(1));
    let more = stage.table.binary(ADD, read, one);
    let mut last = stage.table.assign(counter, more);
    for _ in 0..random.between(1, 40) {
        last = stage.table.then(last, last);
    }
    stage.finish()
}

/// Every count at its limit, or one below, and the highest numbers in use.
fn full_sizes(random: &mut Random) -> Plan {
    let policy = policies::policy(random);
    let mut table = RecipeTable::new(random.pick(&[63, 64]), random.pick(&[1023, 1024]));
    let expressions = random.pick(&[1023, 1024]);
    let last_cell = table.constant(i32::from(table.cells) - 1);
    let last_variable = table.variable(table.variables - 1);
    let loaded = table.cell(last_cell);
    while table.expressions.len() < expressions {
        table.binary(ADD, last_variable, loaded);
    }
    let highest = expressions as u16 - 1;
    let statements = random.pick(&[511, 512]);
    let mut last = table.store(last_cell, highest);
    last = match random.chance(50) {
        true => table.then(last, last),
        false => table.branch(highest, last, last),
    };
    let assign = table.assign(table.variables - 1, highest);
    last = table.then(last, assign);
    while table.statements.len() < statements {
        last = table.then(assign, last);
    }
    let place = |number: usize| Place {
        value: number as i32,
        tag: 0,
    };
    let mut memory: Vec<Place> = (0..table.places()).map(place).collect();
    for _ in 0..20 {
        let number = random.below(memory.len());
        memory[number].tag = any_tag(random, &policy);
    }
    Plan::new(table, policy, memory)
}

// ---------------------------------------------------------------------------------------------- budgets

/// A countdown that takes exactly this many steps: 2n + 1, and 3 more with a skip before it.
fn steps_exactly(steps: usize) -> Plan {
    let mut stage = Stage::new(policies::two_tags());
    let even = steps.is_multiple_of(2);
    let count = (steps - if even { 4 } else { 1 }) / 2;
    let count = stage.variable(count as i32, 0);
    let test = stage.table.variable(count);
    let body = stage.table.count_down(count);
    let whole = stage.table.repeat(test, body);
    if even {
        let skip = stage.table.skip();
        stage.table.then(skip, whole);
    }
    stage.finish()
}

/// Around the 10,000 steps that budget 0 of the C host stands for.
fn house_budget(random: &mut Random) -> Plan {
    let mut plan = steps_exactly(random.between(9_998, 10_003));
    plan.budget = Some(random.pick(&[0, 0, 0, 9_999, 10_000, 10_001]));
    plan
}

/// More records than 16 bits can count, if the room lasts.
fn many_records(random: &mut Random) -> Plan {
    let mut stage = Stage::new(policies::two_tags());
    let count = stage.variable(random.between(65_530, 66_000) as i32, 1);
    let test = stage.table.variable(count);
    let emit = stage.table.emit(1, test);
    let less = stage.table.count_down(count);
    let body = stage.table.then(emit, less);
    stage.table.repeat(test, body);
    let mut plan = stage.finish();
    plan.budget = Some(random.pick(&[300_000, u32::MAX]));
    plan.room = Some(5 * random.between(65_530, 66_010) + random.below(5));
    plan
}

/// More steps than 16 bits can count.
fn long_count(random: &mut Random) -> Plan {
    if random.chance(15) {
        return many_records(random);
    }
    let mut plan = steps_exactly(random.between(65_530, 80_000));
    plan.budget = Some(random.pick(&[65_535, 65_536, 65_537, 70_000, 80_000, 131_072, u32::MAX]));
    plan
}
