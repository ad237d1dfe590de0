//! Recipes, policies and memories as tables of fields, sound or not, and their bytes.
//!
//! These are the generator's own and know nothing of the second machine's decoding: a field may hold anything
//! that its width allows.

use crate::machine::Tag;

#[derive(Clone, Copy, Debug, PartialEq, Eq)]
pub struct ExpressionRecord {
    pub kind: u8,
    pub operator: u8,
    pub a: u16,
    pub b: u32,
}

#[derive(Clone, Copy, Debug, PartialEq, Eq)]
pub struct StatementRecord {
    pub kind: u8,
    pub port: u8,
    pub a: u16,
    pub b: u16,
    pub c: u16,
}

pub const SKIP: StatementRecord = StatementRecord {
    kind: 0,
    port: 0,
    a: 0,
    b: 0,
    c: 0,
};

/// Operators of kind 4.
pub const NEGATE: u8 = 0;
pub const NOT: u8 = 1;
pub const ABSOLUTE: u8 = 2;

/// Operators of kind 5.
pub const ADD: u8 = 0;
pub const SUBTRACT: u8 = 1;
pub const MULTIPLY: u8 = 2;
pub const DIVIDE: u8 = 3;
pub const REMAINDER: u8 = 4;
pub const LESS: u8 = 5;
pub const EQUAL: u8 = 7;
pub const NOT_EQUAL: u8 = 8;

impl ExpressionRecord {
    pub fn to_bytes(self) -> [u8; 8] {
        let (a, b) = (self.a.to_le_bytes(), self.b.to_le_bytes());
        [self.kind, self.operator, a[0], a[1], b[0], b[1], b[2], b[3]]
    }

    fn from_bytes(bytes: &[u8]) -> ExpressionRecord {
        ExpressionRecord {
            kind: bytes[0],
            operator: bytes[1],
            a: u16::from_le_bytes([bytes[2], bytes[3]]),
            b: u32::from_le_bytes([bytes[4], bytes[5], bytes[6], bytes[7]]),
        }
    }
}

impl StatementRecord {
    pub fn to_bytes(self) -> [u8; 8] {
        let (a, b, c) = (
            self.a.to_le_bytes(),
            self.b.to_le_bytes(),
            self.c.to_le_bytes(),
        );
        [self.kind, self.port, a[0], a[1], b[0], b[1], c[0], c[1]]
    }

    fn from_bytes(bytes: &[u8]) -> StatementRecord {
        StatementRecord {
            kind: bytes[0],
            port: bytes[1],
            a: u16::from_le_bytes([bytes[2], bytes[3]]),
            b: u16::from_le_bytes([bytes[4], bytes[5]]),
            c: u16::from_le_bytes([bytes[6], bytes[7]]),
        }
    }
}

/// What field a, b or c of a statement names.
#[derive(Clone, Copy, Debug, PartialEq, Eq)]
pub enum Names {
    Nothing,
    Variable,
    Expression,
    Statement,
}

pub fn statement_names(kind: u8) -> [Names; 3] {
    use Names::*;
    match kind {
        1 => [Variable, Expression, Nothing],
        2 => [Expression, Expression, Nothing],
        3 => [Statement, Statement, Nothing],
        4 => [Expression, Statement, Statement],
        5 => [Expression, Statement, Nothing],
        6 => [Expression, Nothing, Nothing],
        _ => [Nothing, Nothing, Nothing],
    }
}

/// A recipe that is written record by record; each method gives the number of the record it adds.
#[derive(Clone, Debug, Default, PartialEq, Eq)]
pub struct RecipeTable {
    pub expressions: Vec<ExpressionRecord>,
    pub statements: Vec<StatementRecord>,
    pub variables: u16,
    pub cells: u16,
}

impl RecipeTable {
    pub fn new(variables: usize, cells: usize) -> RecipeTable {
        RecipeTable {
            variables: variables as u16,
            cells: cells as u16,
            ..RecipeTable::default()
        }
    }

    pub fn expression(&mut self, kind: u8, operator: u8, a: u16, b: u32) -> u16 {
        self.expressions.push(ExpressionRecord {
            kind,
            operator,
            a,
            b,
        });
        (self.expressions.len() - 1) as u16
    }

    pub fn constant(&mut self, value: i32) -> u16 {
        self.expression(1, 0, 0, value as u32)
    }

    pub fn variable(&mut self, variable: u16) -> u16 {
        self.expression(2, 0, variable, 0)
    }

    pub fn cell(&mut self, index: u16) -> u16 {
        self.expression(3, 0, index, 0)
    }

    pub fn unary(&mut self, operator: u8, operand: u16) -> u16 {
        self.expression(4, operator, operand, 0)
    }

    pub fn binary(&mut self, operator: u8, left: u16, right: u16) -> u16 {
        self.expression(5, operator, left, right.into())
    }

    pub fn statement(&mut self, kind: u8, port: u8, a: u16, b: u16, c: u16) -> u16 {
        self.statements.push(StatementRecord {
            kind,
            port,
            a,
            b,
            c,
        });
        (self.statements.len() - 1) as u16
    }

    pub fn skip(&mut self) -> u16 {
        self.statement(0, 0, 0, 0, 0)
    }

    pub fn assign(&mut self, variable: u16, value: u16) -> u16 {
        self.statement(1, 0, variable, value, 0)
    }

    pub fn store(&mut self, index: u16, value: u16) -> u16 {
        self.statement(2, 0, index, value, 0)
    }

    pub fn then(&mut self, first: u16, second: u16) -> u16 {
        self.statement(3, 0, first, second, 0)
    }

    pub fn branch(&mut self, test: u16, yes: u16, no: u16) -> u16 {
        self.statement(4, 0, test, yes, no)
    }

    pub fn repeat(&mut self, test: u16, body: u16) -> u16 {
        self.statement(5, 0, test, body, 0)
    }

    pub fn emit(&mut self, port: u8, value: u16) -> u16 {
        self.statement(6, port, value, 0, 0)
    }

    /// The statements one after another; a single one stays as it is, none at all is a skip.
    pub fn list(&mut self, statements: &[u16]) -> u16 {
        match *statements {
            [] => self.skip(),
            [only] => only,
            [first, ref rest @ ..] => {
                let rest = self.list(rest);
                self.then(first, rest)
            }
        }
    }

    /// `variable := variable - 1`
    pub fn count_down(&mut self, variable: u16) -> u16 {
        let old = self.variable(variable);
        let one = self.constant(1);
        let less = self.binary(SUBTRACT, old, one);
        self.assign(variable, less)
    }

    pub fn places(&self) -> usize {
        usize::from(self.variables) + usize::from(self.cells)
    }

    pub fn to_bytes(&self) -> Vec<u8> {
        let mut bytes = b"RJR\x01\x00\x00".to_vec();
        let counts = [
            self.expressions.len() as u16,
            self.statements.len() as u16,
            self.variables,
            self.cells,
            0,
        ];
        bytes.extend(counts.iter().flat_map(|count| count.to_le_bytes()));
        bytes.extend(self.expressions.iter().flat_map(|record| record.to_bytes()));
        bytes.extend(self.statements.iter().flat_map(|record| record.to_bytes()));
        bytes
    }

    /// The table of bytes whose header fits their length; the records may hold anything.
    pub fn from_bytes(bytes: &[u8]) -> Option<RecipeTable> {
        let count = |offset: usize| u16::from_le_bytes([bytes[offset], bytes[offset + 1]]);
        if bytes.len() < 16 || bytes[..6] != *b"RJR\x01\x00\x00" || count(14) != 0 {
            return None;
        }
        let (expressions, statements) = (usize::from(count(6)), usize::from(count(8)));
        if bytes.len() != 16 + 8 * (expressions + statements) {
            return None;
        }
        let (first, second) = bytes[16..].split_at(8 * expressions);
        Some(RecipeTable {
            expressions: first
                .chunks_exact(8)
                .map(ExpressionRecord::from_bytes)
                .collect(),
            statements: second
                .chunks_exact(8)
                .map(StatementRecord::from_bytes)
                .collect(),
            variables: count(10),
            cells: count(12),
        })
    }
}

#[derive(Clone, Debug, PartialEq, Eq)]
pub struct PolicyTable {
    pub tags: usize,
    /// Row by row.
    pub joins: Vec<Tag>,
    pub clearances: Vec<Tag>,
}

impl PolicyTable {
    pub fn join(&self, row: Tag, column: Tag) -> Tag {
        self.joins[usize::from(row) * self.tags + usize::from(column)]
    }

    pub fn under(&self, tag: Tag, other: Tag) -> bool {
        self.join(tag, other) == other
    }

    pub fn all_tags(&self) -> Vec<Tag> {
        (0..self.tags as Tag).collect()
    }

    /// The join of all tags.
    pub fn top(&self) -> Tag {
        self.all_tags()
            .into_iter()
            .fold(0, |top, tag| self.join(top, tag))
    }

    pub fn to_bytes(&self) -> Vec<u8> {
        let mut bytes = b"RJP\x01\x00\x00".to_vec();
        bytes.push(self.tags as u8);
        bytes.push(self.clearances.len() as u8);
        bytes.extend(&self.joins);
        bytes.extend(&self.clearances);
        bytes
    }

    /// The table of bytes whose header fits their length; the entries may hold anything.
    pub fn from_bytes(bytes: &[u8]) -> Option<PolicyTable> {
        if bytes.len() < 8 || bytes[..6] != *b"RJP\x01\x00\x00" {
            return None;
        }
        let (tags, ports) = (usize::from(bytes[6]), usize::from(bytes[7]));
        if bytes.len() != 8 + tags * tags + ports {
            return None;
        }
        let (joins, clearances) = bytes[8..].split_at(tags * tags);
        Some(PolicyTable {
            tags,
            joins: joins.to_vec(),
            clearances: clearances.to_vec(),
        })
    }
}

#[derive(Clone, Copy, Debug, PartialEq, Eq)]
pub struct Place {
    pub value: i32,
    pub tag: Tag,
}

pub fn memory_bytes(places: &[Place]) -> Vec<u8> {
    let mut bytes = Vec::with_capacity(5 * places.len());
    for place in places {
        bytes.extend(place.value.to_le_bytes());
        bytes.push(place.tag);
    }
    bytes
}

/// The places of a memory of whole places.
pub fn memory_places(bytes: &[u8]) -> Option<Vec<Place>> {
    if !bytes.len().is_multiple_of(5) {
        return None;
    }
    let place = |bytes: &[u8]| Place {
        value: i32::from_le_bytes([bytes[0], bytes[1], bytes[2], bytes[3]]),
        tag: bytes[4],
    };
    Some(bytes.chunks_exact(5).map(place).collect())
}
