//! Sound recipes drawn at random, with memories that let most of them come some way.

use super::policies;
use super::random::Random;
use super::tables::{
    Place, PolicyTable, RecipeTable, ABSOLUTE, DIVIDE, LESS, NOT_EQUAL, REMAINDER,
};
use super::Plan;
use crate::machine::Tag;

/// Values at which 32-bit arithmetic and indexes turn.
pub const EDGES: [i32; 22] = [
    0,
    1,
    -1,
    2,
    -2,
    3,
    7,
    -7,
    255,
    256,
    46340,
    46341,
    65535,
    65536,
    -65536,
    65537,
    0x4000_0000,
    i32::MAX - 1,
    i32::MAX,
    i32::MIN,
    i32::MIN + 1,
    -0x4000_0000,
];

pub fn any_value(random: &mut Random) -> i32 {
    match random.weighted(&[6, 3, 1]) {
        0 => random.below(7) as i32 - 1,
        1 => random.pick(&EDGES),
        _ => random.next() as i32,
    }
}

/// How the tags of a memory are drawn: a run comes farthest if they agree.
fn memory_tags(random: &mut Random, policy: &PolicyTable, count: usize) -> Vec<Tag> {
    let any = |random: &mut Random| random.below(policy.tags) as Tag;
    let (one, other) = match random.below(5) {
        0 => (0, 0),
        1 => (policy.top(), policy.top()),
        2 => (0, policy.top()),
        3 => (any(random), any(random)),
        _ => return (0..count).map(|_| any(random)).collect(),
    };
    (0..count).map(|_| random.pick(&[one, other])).collect()
}

pub fn memory(random: &mut Random, policy: &PolicyTable, count: usize) -> Vec<Place> {
    let tags = memory_tags(random, policy, count);
    let mut place = |tag| Place {
        value: any_value(random),
        tag,
    };
    tags.into_iter().map(&mut place).collect()
}

/// Writes random records into a table and keeps every spread in bounds.
struct Writer<'a> {
    random: &'a mut Random,
    table: RecipeTable,
    spreads: Vec<u32>,
    ports: usize,
    /// Statements that may still be written.
    fuel: usize,
}

/// Shared operands stay small, so that no depth reached here goes over the spread.
const SHARED_SPREAD: u32 = 8;

impl Writer<'_> {
    fn add(&mut self, kind: u8, operator: u8, a: u16, b: u32) -> u16 {
        let of = |number: usize| self.spreads[number];
        let spread = match kind {
            1 | 2 => 1,
            3 | 4 => 1 + of(a.into()),
            _ => 1 + of(a.into()) + of(b as usize),
        };
        self.spreads.push(spread);
        self.table.expression(kind, operator, a, b)
    }

    fn constant(&mut self, value: i32) -> u16 {
        self.add(1, 0, 0, value as u32)
    }

    fn some_variable(&mut self) -> u16 {
        self.random.below(self.table.variables.into()) as u16
    }

    fn leaf(&mut self) -> u16 {
        if self.table.variables > 0 && self.random.chance(65) {
            let variable = self.some_variable();
            return self.add(2, 0, variable, 0);
        }
        let value = any_value(self.random);
        self.constant(value)
    }

    fn shared(&mut self) -> Option<u16> {
        let number = self.random.below(self.spreads.len().max(1));
        let spread = *self.spreads.get(number)?;
        (spread <= SHARED_SPREAD).then_some(number as u16)
    }

    /// An index that is mostly in range.
    fn index(&mut self, depth: usize) -> u16 {
        let cells = usize::from(self.table.cells);
        if cells == 0 || self.random.chance(12) {
            return self.expression(depth);
        }
        if self.random.chance(70) {
            let index = self.random.below(cells) as i32;
            return self.constant(index);
        }
        let inside = self.leaf();
        let positive = self.add(4, ABSOLUTE, inside, 0);
        let limit = self.constant(cells as i32);
        self.add(5, REMAINDER, positive, limit.into())
    }

    /// A divisor that is mostly not zero.
    fn divisor(&mut self, depth: usize) -> u16 {
        if self.random.chance(25) {
            return self.expression(depth);
        }
        let value = self
            .random
            .pick(&[1, -1, 2, -2, 3, 7, -7, 10, i32::MAX, i32::MIN]);
        self.constant(value)
    }

    fn expression(&mut self, depth: usize) -> u16 {
        if self.random.chance(12) {
            if let Some(number) = self.shared() {
                return number;
            }
        }
        if depth == 0 {
            return self.leaf();
        }
        match self.random.weighted(&[4, 2, 2, 6]) {
            0 => self.leaf(),
            1 => {
                let index = self.index(depth - 1);
                self.add(3, 0, index, 0)
            }
            2 => {
                let operand = self.expression(depth - 1);
                let operator = self.random.below(3) as u8;
                self.add(4, operator, operand, 0)
            }
            _ => self.binary(depth - 1),
        }
    }

    fn binary(&mut self, depth: usize) -> u16 {
        let operator = self.random.below(9) as u8;
        let left = self.expression(depth);
        let right = match operator {
            DIVIDE | REMAINDER => self.divisor(depth),
            _ => self.expression(depth),
        };
        self.add(5, operator, left, right.into())
    }

    fn some_depth(&mut self) -> usize {
        self.random.weighted(&[3, 4, 2, 1])
    }

    fn some_expression(&mut self) -> u16 {
        let depth = self.some_depth();
        self.expression(depth)
    }

    fn test(&mut self) -> u16 {
        if self.table.variables == 0 || self.random.chance(30) {
            return self.some_expression();
        }
        let variable = self.some_variable();
        let left = self.add(2, 0, variable, 0);
        if self.random.chance(50) {
            return left;
        }
        let limit = self.random.below(4) as i32;
        let right = self.constant(limit);
        let operator = self.random.pick(&[LESS, NOT_EQUAL]);
        self.add(5, operator, left, right.into())
    }

    fn simple(&mut self) -> u16 {
        match self.random.weighted(&[1, 6, 4, 4]) {
            1 if self.table.variables > 0 => {
                let value = self.some_expression();
                let variable = self.some_variable();
                self.table.assign(variable, value)
            }
            2 if self.table.cells > 0 || self.random.chance(10) => {
                let depth = self.some_depth();
                let index = self.index(depth);
                let value = self.some_expression();
                self.table.store(index, value)
            }
            3 if self.ports > 0 => {
                let value = self.some_expression();
                let port = self.random.below(self.ports) as u8;
                self.table.emit(port, value)
            }
            _ => self.table.skip(),
        }
    }

    fn statement(&mut self, depth: usize) -> u16 {
        if !self.table.statements.is_empty() && self.random.chance(10) {
            return self.random.below(self.table.statements.len()) as u16;
        }
        if depth == 0 || self.fuel == 0 {
            return self.simple();
        }
        self.fuel -= 1;
        self.fresh(depth)
    }

    /// A statement with a record of its own, above all others so far.
    fn fresh(&mut self, depth: usize) -> u16 {
        match self.random.weighted(&[3, 6, 4, 2, 2]) {
            0 => self.simple(),
            1 => {
                let first = self.statement(depth - 1);
                let second = self.statement(depth - 1);
                self.table.then(first, second)
            }
            2 => {
                let test = self.test();
                let yes = self.statement(depth - 1);
                let no = self.statement(depth - 1);
                self.table.branch(test, yes, no)
            }
            3 => {
                let test = self.test();
                let body = self.statement(depth - 1);
                self.table.repeat(test, body)
            }
            _ => self.counted(depth - 1),
        }
    }

    /// A loop that counts a variable down, and so mostly ends.
    fn counted(&mut self, depth: usize) -> u16 {
        if self.table.variables == 0 {
            return self.simple();
        }
        let body = self.statement(depth);
        let variable = self.some_variable();
        let (old, one) = (self.add(2, 0, variable, 0), self.constant(1));
        let less = self.add(5, super::tables::SUBTRACT, old, one.into());
        let count = self.table.assign(variable, less);
        let body = self.table.then(body, count);
        let zero = self.constant(0);
        let test = self.add(5, LESS, zero, old.into());
        self.table.repeat(test, body)
    }
}

fn sizes(random: &mut Random) -> (usize, usize) {
    match random.weighted(&[10, 2, 1, 1]) {
        0 => (random.between(1, 5), random.between(0, 4)),
        1 => (random.between(0, 2), random.between(0, 1)),
        2 => (random.between(40, 64), random.between(0, 40)),
        _ => (random.between(0, 8), random.between(200, 1024)),
    }
}

fn writer(random: &mut Random, ports: usize) -> Writer<'_> {
    let (variables, cells) = sizes(random);
    let fuel = random.between(2, 30);
    Writer {
        random,
        table: RecipeTable::new(variables, cells),
        spreads: Vec::new(),
        ports,
        fuel,
    }
}

/// A recipe grown as a tree, with some records shared.
pub fn tree(random: &mut Random) -> Plan {
    let policy = policies::policy(random);
    let mut writer = writer(random, policy.clearances.len());
    let depth = writer.random.between(1, 7);
    writer.fresh(depth);
    let recipe = writer.table;
    let memory = memory(random, &policy, recipe.places());
    Plan::new(recipe, policy, memory)
}

/// A recipe of records that name any lower ones: much sharing, unreached records, any statement at the top.
pub fn web(random: &mut Random) -> Plan {
    let policy = policies::policy(random);
    let mut writer = writer(random, policy.clearances.len());
    for _ in 0..writer.random.between(1, 24) {
        writer.web_expression();
    }
    for _ in 0..writer.random.between(1, 24) {
        writer.web_statement();
    }
    let recipe = writer.table;
    let memory = memory(random, &policy, recipe.places());
    Plan::new(recipe, policy, memory)
}

impl Writer<'_> {
    fn lower_expression(&mut self) -> u16 {
        self.random.below(self.table.expressions.len()) as u16
    }

    fn lower_statement(&mut self) -> u16 {
        self.random.below(self.table.statements.len()) as u16
    }

    fn web_expression(&mut self) {
        let kind = self.random.weighted(&[4, 4, 2, 2, 6]) as u8 + 1;
        let low_enough = self.spreads.iter().all(|&spread| spread <= 100);
        if self.spreads.is_empty() || kind < 3 || !low_enough {
            self.leaf();
            return;
        }
        let (a, b) = (self.lower_expression(), self.lower_expression());
        match kind {
            3 => self.add(3, 0, a, 0),
            4 => {
                let operator = self.random.below(3) as u8;
                self.add(4, operator, a, 0)
            }
            _ => {
                let operator = self.random.below(9) as u8;
                self.add(5, operator, a, b.into())
            }
        };
    }

    fn web_statement(&mut self) {
        let kind = self.random.weighted(&[1, 5, 3, 5, 4, 2, 4]);
        if self.table.statements.is_empty() && (3..=5).contains(&kind) {
            self.table.skip();
            return;
        }
        let (a, b) = (self.lower_expression(), self.lower_expression());
        match kind {
            1 if self.table.variables > 0 => {
                let variable = self.some_variable();
                self.table.assign(variable, a)
            }
            2 => self.table.store(a, b),
            3 => {
                let (first, second) = (self.lower_statement(), self.lower_statement());
                self.table.then(first, second)
            }
            4 => {
                let (yes, no) = (self.lower_statement(), self.lower_statement());
                self.table.branch(a, yes, no)
            }
            5 => {
                let body = self.lower_statement();
                self.table.repeat(a, body)
            }
            6 if self.ports > 0 => {
                let port = self.random.below(self.ports) as u8;
                self.table.emit(port, a)
            }
            _ => self.table.skip(),
        };
    }
}
