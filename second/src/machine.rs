//! The second machine: document 01 once more, written apart from the library it is compared with.
//!
//! A recipe and a policy are decoded whole into vectors, the run works on decoded places, and memory and records
//! are put back as bytes at its end. Every point at which tags decide goes through [`TagRules`], so that the
//! pair-run check can be tried on machines that go wrong at exactly one of them.

#![forbid(unsafe_code)]

pub type Tag = u8;

/// The C host's budget when it gives 0.
pub const HOUSE_BUDGET: u32 = 10_000;
pub const HOUSE_POLICY_LENGTH: usize = 266;
pub const REPORT_LENGTH: usize = 12;
/// A record: port byte, signed 32-bit value.
pub const RECORD_LENGTH: usize = 5;
/// A place of the memory: signed 32-bit value, tag.
pub const PLACE_LENGTH: usize = 5;

const HEADER_LENGTH: usize = 16;
const ENTRY_LENGTH: usize = 8;
const POLICY_HEADER_LENGTH: usize = 8;
const MOST_EXPRESSIONS: usize = 1024;
const MOST_STATEMENTS: usize = 512;
const MOST_VARIABLES: usize = 64;
const MOST_CELLS: usize = 1024;
const MOST_SPREAD: u32 = 256;

/// The table of ends and refusal numbers.
pub mod number {
    pub const DONE: u16 = 0;
    pub const BUDGET_USED: u16 = 1;
    pub const ASSIGN_TAG: u16 = 2;
    pub const STORE_TAG: u16 = 3;
    pub const EMIT_TAG: u16 = 4;
    pub const INDEX: u16 = 5;
    pub const ZERO_DIVISOR: u16 = 6;
    pub const NO_ROOM: u16 = 7;
    pub const FRAMES: u16 = 8;
    pub const RECIPE_LENGTH: u16 = 16;
    pub const RECIPE_MARK: u16 = 17;
    pub const RECIPE_VERSION: u16 = 18;
    pub const RECIPE_COUNTS: u16 = 19;
    pub const EXPRESSION_MALFORMED: u16 = 20;
    pub const SPREAD: u16 = 21;
    pub const STATEMENT_MALFORMED: u16 = 22;
    pub const POLICY_HEADER: u16 = 23;
    pub const POLICY_ENTRY: u16 = 24;
    pub const POLICY_LAW: u16 = 25;
    pub const PORT: u16 = 26;
    pub const MEMORY_LENGTH: u16 = 27;
    pub const MEMORY_TAG: u16 = 28;
    pub const HOUSE_BUFFER: u16 = 29;
    pub const REPORT_BUFFER: u16 = 30;
}

/// A number together with its place.
#[derive(Clone, Copy, Debug, PartialEq, Eq)]
pub struct Stop {
    pub number: u16,
    pub place: u16,
}

impl Stop {
    /// A stop whose place the paper's sentence does not name.
    fn bare(number: u16) -> Stop {
        Stop { number, place: 0 }
    }

    fn at(number: u16, place: usize) -> Stop {
        let place = u16::try_from(place).expect("every place fits 16 bits");
        Stop { number, place }
    }
}

/// The result: end, place, steps, records.
#[derive(Clone, Copy, Debug, PartialEq, Eq)]
pub struct Outcome {
    pub number: u16,
    pub place: u16,
    pub steps: u32,
    pub records: u32,
}

fn u16_at(bytes: &[u8], offset: usize) -> u16 {
    u16::from_le_bytes([bytes[offset], bytes[offset + 1]])
}

fn u32_at(bytes: &[u8], offset: usize) -> u32 {
    u32::from(u16_at(bytes, offset)) | u32::from(u16_at(bytes, offset + 2)) << 16
}

// ---------------------------------------------------------------------------------------------- the recipe

#[derive(Clone, Copy, Debug)]
enum Unary {
    Negate,
    Not,
    Absolute,
}

#[derive(Clone, Copy, Debug)]
enum Binary {
    Add,
    Subtract,
    Multiply,
    Divide,
    Remainder,
    Less,
    LessOrEqual,
    Equal,
    NotEqual,
}

/// An expression; operands are expression numbers, each lower than their user's.
#[derive(Clone, Copy, Debug)]
enum Expression {
    Constant(i32),
    Variable(usize),
    Cell { index: usize },
    Unary(Unary, usize),
    Binary(Binary, usize, usize),
}

/// A statement; the statements named inside are lower numbers than its own.
#[derive(Clone, Copy, Debug)]
enum Statement {
    Skip,
    Assign { variable: usize, value: usize },
    Store { index: usize, value: usize },
    Then(usize, usize),
    If { test: usize, yes: usize, no: usize },
    While { test: usize, body: usize },
    Emit { port: usize, value: usize },
}

struct Counts {
    expressions: usize,
    statements: usize,
    variables: usize,
    cells: usize,
}

struct Recipe {
    expressions: Vec<Expression>,
    statements: Vec<Statement>,
    variables: usize,
    cells: usize,
}

/// Checks 16 (short), 17, 18, 19 and 16 (length), in this order.
fn read_header(bytes: &[u8]) -> Result<Counts, Stop> {
    if bytes.len() < HEADER_LENGTH {
        return Err(Stop::bare(number::RECIPE_LENGTH));
    }
    if &bytes[..3] != b"RJR" {
        return Err(Stop::bare(number::RECIPE_MARK));
    }
    if u16_at(bytes, 3) != 1 {
        return Err(Stop::bare(number::RECIPE_VERSION));
    }
    let counts = Counts {
        expressions: u16_at(bytes, 6).into(),
        statements: u16_at(bytes, 8).into(),
        variables: u16_at(bytes, 10).into(),
        cells: u16_at(bytes, 12).into(),
    };
    if bytes[5] != 0 || u16_at(bytes, 14) != 0 || !counts.in_range() {
        return Err(Stop::bare(number::RECIPE_COUNTS));
    }
    let length = HEADER_LENGTH + ENTRY_LENGTH * (counts.expressions + counts.statements);
    if bytes.len() != length {
        return Err(Stop::bare(number::RECIPE_LENGTH));
    }
    Ok(counts)
}

impl Counts {
    fn in_range(&self) -> bool {
        self.expressions <= MOST_EXPRESSIONS
            && (1..=MOST_STATEMENTS).contains(&self.statements)
            && self.variables <= MOST_VARIABLES
            && self.cells <= MOST_CELLS
    }
}

fn unary_operator(operator: u8) -> Option<Unary> {
    [Unary::Negate, Unary::Not, Unary::Absolute]
        .get(usize::from(operator))
        .copied()
}

fn binary_operator(operator: u8) -> Option<Binary> {
    [
        Binary::Add,
        Binary::Subtract,
        Binary::Multiply,
        Binary::Divide,
        Binary::Remainder,
        Binary::Less,
        Binary::LessOrEqual,
        Binary::Equal,
        Binary::NotEqual,
    ]
    .get(usize::from(operator))
    .copied()
}

/// The expression with this number, or nothing if its record is malformed.
fn read_expression(record: &[u8], own: usize, variables: usize) -> Option<Expression> {
    let operator = record[1];
    let a = usize::from(u16_at(record, 2));
    // The right operand is all 32 bits: 65536 names no expression, least of all number 0.
    let b = u32_at(record, 4);
    match record[0] {
        1 if operator == 0 && a == 0 => Some(Expression::Constant(b as i32)),
        2 if operator == 0 && a < variables && b == 0 => Some(Expression::Variable(a)),
        3 if operator == 0 && a < own && b == 0 => Some(Expression::Cell { index: a }),
        4 if a < own && b == 0 => Some(Expression::Unary(unary_operator(operator)?, a)),
        5 if a < own && (b as usize) < own => Some(Expression::Binary(
            binary_operator(operator)?,
            a,
            b as usize,
        )),
        _ => None,
    }
}

/// The spread of an expression, from those of all lower ones: a shared operand counts at each use.
fn spread(expression: Expression, lower: &[u32]) -> u32 {
    match expression {
        Expression::Constant(_) | Expression::Variable(_) => 1,
        Expression::Cell { index } => 1 + lower[index],
        Expression::Unary(_, operand) => 1 + lower[operand],
        Expression::Binary(_, left, right) => 1 + lower[left] + lower[right],
    }
}

/// Checks 20 and 21, upwards, at each expression 20 before 21.
fn read_expressions(bytes: &[u8], variables: usize) -> Result<Vec<Expression>, Stop> {
    let mut expressions = Vec::new();
    let mut spreads = Vec::new();
    for (own, record) in bytes.chunks_exact(ENTRY_LENGTH).enumerate() {
        let expression = read_expression(record, own, variables)
            .ok_or(Stop::at(number::EXPRESSION_MALFORMED, own))?;
        let own_spread = spread(expression, &spreads);
        if own_spread > MOST_SPREAD {
            return Err(Stop::at(number::SPREAD, own));
        }
        expressions.push(expression);
        spreads.push(own_spread);
    }
    Ok(expressions)
}

/// The statement with this number, or nothing if its record is malformed.
fn read_statement(record: &[u8], own: usize, counts: &Counts) -> Option<Statement> {
    let port = usize::from(record[1]);
    let a = usize::from(u16_at(record, 2));
    let b = usize::from(u16_at(record, 4));
    let c = usize::from(u16_at(record, 6));
    let variable = |number: usize| number < counts.variables;
    let expression = |number: usize| number < counts.expressions;
    let lower = |number: usize| number < own;
    match (record[0], port) {
        (0, 0) if (a, b, c) == (0, 0, 0) => Some(Statement::Skip),
        (1, 0) if variable(a) && expression(b) && c == 0 => Some(Statement::Assign {
            variable: a,
            value: b,
        }),
        (2, 0) if expression(a) && expression(b) && c == 0 => {
            Some(Statement::Store { index: a, value: b })
        }
        (3, 0) if lower(a) && lower(b) && c == 0 => Some(Statement::Then(a, b)),
        (4, 0) if expression(a) && lower(b) && lower(c) => Some(Statement::If {
            test: a,
            yes: b,
            no: c,
        }),
        (5, 0) if expression(a) && lower(b) && c == 0 => {
            Some(Statement::While { test: a, body: b })
        }
        (6, _) if expression(a) && (b, c) == (0, 0) => Some(Statement::Emit { port, value: a }),
        _ => None,
    }
}

/// Check 22, upwards.
fn read_statements(bytes: &[u8], counts: &Counts) -> Result<Vec<Statement>, Stop> {
    bytes
        .chunks_exact(ENTRY_LENGTH)
        .enumerate()
        .map(|(own, record)| {
            read_statement(record, own, counts).ok_or(Stop::at(number::STATEMENT_MALFORMED, own))
        })
        .collect()
}

/// Checks 16 to 22.
fn read_recipe(bytes: &[u8]) -> Result<Recipe, Stop> {
    let counts = read_header(bytes)?;
    let entries = &bytes[HEADER_LENGTH..];
    let (expressions, statements) = entries.split_at(ENTRY_LENGTH * counts.expressions);
    Ok(Recipe {
        expressions: read_expressions(expressions, counts.variables)?,
        statements: read_statements(statements, &counts)?,
        variables: counts.variables,
        cells: counts.cells,
    })
}

// ---------------------------------------------------------------------------------------------- the policy

pub struct Policy {
    tags: usize,
    joins: Vec<Tag>,
    clearances: Vec<Tag>,
}

impl Policy {
    pub fn tags(&self) -> usize {
        self.tags
    }

    pub fn join(&self, row: Tag, column: Tag) -> Tag {
        self.joins[usize::from(row) * self.tags + usize::from(column)]
    }

    pub fn lies_under(&self, tag: Tag, other: Tag) -> bool {
        self.join(tag, other) == other
    }

    pub fn ports(&self) -> usize {
        self.clearances.len()
    }

    /// The clearance of a port that is below the port count.
    pub fn clearance(&self, port: usize) -> Tag {
        self.clearances[port]
    }

    fn all_tags(&self) -> impl Iterator<Item = Tag> {
        0..self.tags as Tag
    }

    fn laws_hold(&self) -> bool {
        self.all_tags()
            .all(|t| self.join(t, t) == t && self.join(0, t) == t)
            && self.all_tags().all(|t| self.laws_hold_from(t))
    }

    /// Commutative and associative for all pairs and triples that begin with `t`.
    fn laws_hold_from(&self, t: Tag) -> bool {
        self.all_tags().all(|u| {
            self.join(t, u) == self.join(u, t)
                && self
                    .all_tags()
                    .all(|w| self.join(self.join(t, u), w) == self.join(t, self.join(u, w)))
        })
    }
}

/// Check 23: the tag and port counts, if header and length are right.
fn read_policy_header(bytes: &[u8]) -> Option<(usize, usize)> {
    let header = bytes.get(..POLICY_HEADER_LENGTH)?;
    let (tags, ports) = (usize::from(header[6]), usize::from(header[7]));
    let right = &header[..3] == b"RJP"
        && u16_at(header, 3) == 1
        && header[5] == 0
        && (1..=16).contains(&tags)
        && ports <= 16
        && bytes.len() == POLICY_HEADER_LENGTH + tags * tags + ports;
    right.then_some((tags, ports))
}

/// Checks 23, 24 and 25.
pub fn read_policy(bytes: &[u8]) -> Result<Policy, Stop> {
    let (tags, _) = read_policy_header(bytes).ok_or(Stop::bare(number::POLICY_HEADER))?;
    let entries = &bytes[POLICY_HEADER_LENGTH..];
    if let Some(bad) = entries.iter().position(|&entry| usize::from(entry) >= tags) {
        return Err(Stop::at(number::POLICY_ENTRY, POLICY_HEADER_LENGTH + bad));
    }
    let (joins, clearances) = entries.split_at(tags * tags);
    let policy = Policy {
        tags,
        joins: joins.to_vec(),
        clearances: clearances.to_vec(),
    };
    if !policy.laws_hold() {
        return Err(Stop::bare(number::POLICY_LAW));
    }
    Ok(policy)
}

/// Check 26, over all statements, reached or not.
fn check_ports(recipe: &Recipe, policy: &Policy) -> Result<(), Stop> {
    for (own, statement) in recipe.statements.iter().enumerate() {
        match *statement {
            Statement::Emit { port, .. } if port >= policy.ports() => {
                return Err(Stop::at(number::PORT, own));
            }
            _ => {}
        }
    }
    Ok(())
}

// ---------------------------------------------------------------------------------------------- the memory

/// A value with its tag: what a place holds and what an expression gives.
#[derive(Clone, Copy, Debug, PartialEq, Eq)]
pub struct Tagged {
    pub value: i32,
    pub tag: Tag,
}

pub fn read_places(memory: &[u8]) -> Vec<Tagged> {
    memory
        .chunks_exact(PLACE_LENGTH)
        .map(|place| Tagged {
            value: u32_at(place, 0) as i32,
            tag: place[4],
        })
        .collect()
}

/// Checks 27 and 28.
fn check_memory(memory: &[u8], recipe: &Recipe, policy: &Policy) -> Result<Vec<Tagged>, Stop> {
    if memory.len() != PLACE_LENGTH * (recipe.variables + recipe.cells) {
        return Err(Stop::bare(number::MEMORY_LENGTH));
    }
    let places = read_places(memory);
    match places
        .iter()
        .position(|place| usize::from(place.tag) >= policy.tags)
    {
        Some(bad) => Err(Stop::at(number::MEMORY_TAG, bad)),
        None => Ok(places),
    }
}

fn write_places(places: &[Tagged], memory: &mut [u8]) {
    for (bytes, place) in memory.chunks_exact_mut(PLACE_LENGTH).zip(places) {
        bytes[..4].copy_from_slice(&place.value.to_le_bytes());
        bytes[4] = place.tag;
    }
}

// ---------------------------------------------------------------------------------------------- the tag rules

/// Every point of a run at which tags are joined or looked at, as document 01 has it. A planted error replaces
/// one of these and leaves the others.
pub trait TagRules {
    /// The tag of a unary expression.
    fn unary(operand: Tag) -> Tag {
        operand
    }

    /// The tag of a binary expression.
    fn binary(policy: &Policy, left: Tag, right: Tag) -> Tag {
        policy.join(left, right)
    }

    /// The tag of a cell expression.
    fn load(policy: &Policy, cell: Tag, index: Tag) -> Tag {
        policy.join(cell, index)
    }

    /// What must lie under the variable's old tag.
    fn assign_needs(_policy: &Policy, branch: Tag) -> Tag {
        branch
    }

    /// The variable's new tag.
    fn assign_gives(policy: &Policy, branch: Tag, value: Tag) -> Tag {
        policy.join(branch, value)
    }

    /// What must lie under the cell's old tag.
    fn store_needs(policy: &Policy, branch: Tag, index: Tag) -> Tag {
        policy.join(branch, index)
    }

    /// The cell's new tag.
    fn store_gives(policy: &Policy, branch: Tag, index: Tag, value: Tag) -> Tag {
        policy.join(policy.join(branch, index), value)
    }

    /// What must lie under the port's clearance.
    fn emit_needs(policy: &Policy, branch: Tag, value: Tag) -> Tag {
        policy.join(branch, value)
    }

    /// The branch tag inside an if.
    fn if_branch(policy: &Policy, branch: Tag, test: Tag) -> Tag {
        policy.join(branch, test)
    }

    /// The branch tag in the first round of a while.
    fn while_branch(policy: &Policy, branch: Tag, test: Tag) -> Tag {
        policy.join(branch, test)
    }

    /// The branch tag in every later round: the test's tag joins the current one, not the saved one.
    fn repeat_branch(policy: &Policy, _saved: Tag, current: Tag, test: Tag) -> Tag {
        policy.join(current, test)
    }

    /// The branch tag once a Join frame is taken.
    fn after_if(saved: Tag) -> Tag {
        saved
    }

    /// The branch tag once a Loop frame is dropped.
    fn after_loop(saved: Tag) -> Tag {
        saved
    }
}

/// The rules as they stand in document 01.
pub struct Paper;

impl TagRules for Paper {}

// ---------------------------------------------------------------------------------------------- the run

#[derive(Clone, Copy, Debug)]
enum Frame {
    /// The second part of a then-statement.
    Next(usize),
    /// The branch tag from before an if.
    Join(Tag),
    /// A while and the branch tag from before it.
    Loop(usize, Tag),
}

struct Record {
    port: u8,
    value: i32,
}

struct Run<'a> {
    recipe: &'a Recipe,
    policy: &'a Policy,
    branch_tag: Tag,
    to_begin: Option<usize>,
    frames: Vec<Frame>,
    places: Vec<Tagged>,
    records: Vec<Record>,
    /// Bytes lent for records.
    room: usize,
}

/// The number with which an expression or a statement stops; its place is the statement carried out.
type Checked<T> = Result<T, u16>;

impl<'a> Run<'a> {
    fn new(recipe: &'a Recipe, policy: &'a Policy, places: Vec<Tagged>, room: usize) -> Run<'a> {
        Run {
            recipe,
            policy,
            branch_tag: 0,
            to_begin: Some(recipe.statements.len() - 1),
            frames: Vec::new(),
            places,
            records: Vec::new(),
            room,
        }
    }

    /// Runs to an end; done is looked at before the budget.
    fn run<R: TagRules>(&mut self, budget: u32) -> Outcome {
        let mut steps = 0;
        while !self.is_done() {
            if steps == budget {
                return self.outcome(Stop::bare(number::BUDGET_USED), steps);
            }
            // A step that ends the run early is counted too.
            steps += 1;
            if let Err(stop) = self.step::<R>() {
                return self.outcome(stop, steps);
            }
        }
        self.outcome(Stop::bare(number::DONE), steps)
    }

    fn outcome(&self, stop: Stop, steps: u32) -> Outcome {
        Outcome {
            number: stop.number,
            place: stop.place,
            steps,
            records: self.records.len() as u32,
        }
    }

    fn is_done(&self) -> bool {
        self.to_begin.is_none() && self.frames.is_empty()
    }

    /// One step begins a statement, or takes the top frame when no statement waits.
    fn step<R: TagRules>(&mut self) -> Result<(), Stop> {
        match self.to_begin.take() {
            Some(statement) => self
                .begin::<R>(statement)
                .map_err(|number| Stop::at(number, statement)),
            None => self.take_frame::<R>(),
        }
    }

    fn begin<R: TagRules>(&mut self, own: usize) -> Checked<()> {
        match self.recipe.statements[own] {
            Statement::Skip => Ok(()),
            Statement::Assign { variable, value } => self.assign::<R>(variable, value),
            Statement::Store { index, value } => self.store::<R>(index, value),
            Statement::Then(first, second) => self.then(first, second),
            Statement::If { test, yes, no } => self.branch::<R>(test, yes, no),
            Statement::While { test, body } => self.begin_while::<R>(own, test, body),
            Statement::Emit { port, value } => self.emit::<R>(port, value),
        }
    }

    fn assign<R: TagRules>(&mut self, variable: usize, value: usize) -> Checked<()> {
        let value = self.value::<R>(value)?;
        let needed = R::assign_needs(self.policy, self.branch_tag);
        if !self.policy.lies_under(needed, self.places[variable].tag) {
            return Err(number::ASSIGN_TAG);
        }
        self.places[variable] = Tagged {
            value: value.value,
            tag: R::assign_gives(self.policy, self.branch_tag, value.tag),
        };
        Ok(())
    }

    fn store<R: TagRules>(&mut self, index: usize, value: usize) -> Checked<()> {
        let index = self.value::<R>(index)?;
        let value = self.value::<R>(value)?;
        let place = self.cell_place(index.value)?;
        let needed = R::store_needs(self.policy, self.branch_tag, index.tag);
        if !self.policy.lies_under(needed, self.places[place].tag) {
            return Err(number::STORE_TAG);
        }
        self.places[place] = Tagged {
            value: value.value,
            tag: R::store_gives(self.policy, self.branch_tag, index.tag, value.tag),
        };
        Ok(())
    }

    fn emit<R: TagRules>(&mut self, port: usize, value: usize) -> Checked<()> {
        let value = self.value::<R>(value)?;
        let needed = R::emit_needs(self.policy, self.branch_tag, value.tag);
        if !self.policy.lies_under(needed, self.policy.clearance(port)) {
            return Err(number::EMIT_TAG);
        }
        let left = self.room - RECORD_LENGTH * self.records.len();
        if left < RECORD_LENGTH {
            return Err(number::NO_ROOM);
        }
        self.records.push(Record {
            port: port as u8,
            value: value.value,
        });
        Ok(())
    }

    fn then(&mut self, first: usize, second: usize) -> Checked<()> {
        self.push(Frame::Next(second))?;
        self.to_begin = Some(first);
        Ok(())
    }

    fn branch<R: TagRules>(&mut self, test: usize, yes: usize, no: usize) -> Checked<()> {
        let test = self.value::<R>(test)?;
        self.push(Frame::Join(self.branch_tag))?;
        self.branch_tag = R::if_branch(self.policy, self.branch_tag, test.tag);
        self.to_begin = Some(if test.value != 0 { yes } else { no });
        Ok(())
    }

    fn begin_while<R: TagRules>(&mut self, own: usize, test: usize, body: usize) -> Checked<()> {
        let test = self.value::<R>(test)?;
        if test.value != 0 {
            self.push(Frame::Loop(own, self.branch_tag))?;
            self.branch_tag = R::while_branch(self.policy, self.branch_tag, test.tag);
            self.to_begin = Some(body);
        }
        Ok(())
    }

    fn take_frame<R: TagRules>(&mut self) -> Result<(), Stop> {
        match self.frames.pop().expect("the run is not done") {
            Frame::Next(statement) => self.to_begin = Some(statement),
            Frame::Join(saved) => self.branch_tag = R::after_if(saved),
            Frame::Loop(own, saved) => {
                return self
                    .test_again::<R>(own, saved)
                    .map_err(|number| Stop::at(number, own));
            }
        }
        Ok(())
    }

    /// The repeated test of the while `own`, whose frame was just taken off.
    fn test_again<R: TagRules>(&mut self, own: usize, saved: Tag) -> Checked<()> {
        let Statement::While { test, body } = self.recipe.statements[own] else {
            unreachable!("only a while pushes a Loop frame");
        };
        let test = self.value::<R>(test)?;
        if test.value != 0 {
            // The frame stays as it was.
            self.frames.push(Frame::Loop(own, saved));
            self.branch_tag = R::repeat_branch(self.policy, saved, self.branch_tag, test.tag);
            self.to_begin = Some(body);
        } else {
            self.branch_tag = R::after_loop(saved);
        }
        Ok(())
    }

    /// The limit is S frames. No run meets it: a frame is only held for a statement above the one carried out.
    fn push(&mut self, frame: Frame) -> Checked<()> {
        if self.frames.len() == self.recipe.statements.len() {
            return Err(number::FRAMES);
        }
        self.frames.push(frame);
        Ok(())
    }

    fn value<R: TagRules>(&self, expression: usize) -> Checked<Tagged> {
        match self.recipe.expressions[expression] {
            Expression::Constant(value) => Ok(Tagged { value, tag: 0 }),
            Expression::Variable(variable) => Ok(self.places[variable]),
            Expression::Cell { index } => {
                let index = self.value::<R>(index)?;
                let cell = self.places[self.cell_place(index.value)?];
                Ok(Tagged {
                    value: cell.value,
                    tag: R::load(self.policy, cell.tag, index.tag),
                })
            }
            Expression::Unary(operator, operand) => {
                let operand = self.value::<R>(operand)?;
                Ok(Tagged {
                    value: unary(operator, operand.value),
                    tag: R::unary(operand.tag),
                })
            }
            Expression::Binary(operator, left, right) => {
                let left = self.value::<R>(left)?;
                let right = self.value::<R>(right)?;
                Ok(Tagged {
                    value: binary(operator, left.value, right.value)?,
                    tag: R::binary(self.policy, left.tag, right.tag),
                })
            }
        }
    }

    /// The place of the cell at an index: cells come after the variables.
    fn cell_place(&self, index: i32) -> Checked<usize> {
        match usize::try_from(index) {
            Ok(cell) if cell < self.recipe.cells => Ok(self.recipe.variables + cell),
            _ => Err(number::INDEX),
        }
    }
}

fn unary(operator: Unary, operand: i32) -> i32 {
    match operator {
        Unary::Negate => operand.wrapping_neg(),
        Unary::Not => i32::from(operand == 0),
        Unary::Absolute => operand.wrapping_abs(),
    }
}

fn binary(operator: Binary, left: i32, right: i32) -> Checked<i32> {
    Ok(match operator {
        Binary::Add => left.wrapping_add(right),
        Binary::Subtract => left.wrapping_sub(right),
        Binary::Multiply => left.wrapping_mul(right),
        Binary::Divide | Binary::Remainder if right == 0 => return Err(number::ZERO_DIVISOR),
        Binary::Divide => left.wrapping_div(right),
        Binary::Remainder => left.wrapping_rem(right),
        Binary::Less => i32::from(left < right),
        Binary::LessOrEqual => i32::from(left <= right),
        Binary::Equal => i32::from(left == right),
        Binary::NotEqual => i32::from(left != right),
    })
}

// ---------------------------------------------------------------------------------------------- the entries

fn write_records(records: &[Record], room: &mut [u8]) {
    for (bytes, record) in room.chunks_exact_mut(RECORD_LENGTH).zip(records) {
        bytes[0] = record.port;
        bytes[1..].copy_from_slice(&record.value.to_le_bytes());
    }
}

/// All checks but 30, then the run. An error is a refusal.
fn check_and_run<R: TagRules>(
    recipe: &[u8],
    policy: &[u8],
    memory: &mut [u8],
    room: &mut [u8],
    budget: u32,
) -> Result<Outcome, Stop> {
    let recipe = read_recipe(recipe)?;
    let policy = read_policy(policy)?;
    check_ports(&recipe, &policy)?;
    let places = check_memory(memory, &recipe, &policy)?;
    let mut run = Run::new(&recipe, &policy, places, room.len());
    let outcome = run.run::<R>(budget);
    write_places(&run.places, memory);
    write_records(&run.records, room);
    Ok(outcome)
}

/// The library's entry, in which budget 0 means no step.
pub fn carry_out<R: TagRules>(
    recipe: &[u8],
    policy: &[u8],
    memory: &mut [u8],
    room: &mut [u8],
    budget: u32,
) -> Outcome {
    check_and_run::<R>(recipe, policy, memory, room, budget).unwrap_or_else(|refusal| Outcome {
        number: refusal.number,
        place: refusal.place,
        steps: 0,
        records: 0,
    })
}

fn write_report(outcome: &Outcome, report: &mut [u8]) {
    report[0..2].copy_from_slice(&outcome.number.to_le_bytes());
    report[2..4].copy_from_slice(&outcome.place.to_le_bytes());
    report[4..8].copy_from_slice(&outcome.steps.to_le_bytes());
    report[8..12].copy_from_slice(&outcome.records.to_le_bytes());
}

/// The C host's entry: the report buffer first, the house budget for 0, the report for every number but 30.
pub fn judge<R: TagRules>(
    recipe: &[u8],
    policy: &[u8],
    memory: &mut [u8],
    room: &mut [u8],
    report: &mut [u8],
    budget: u32,
) -> u32 {
    if report.len() < REPORT_LENGTH {
        return number::REPORT_BUFFER.into();
    }
    let budget = if budget == 0 { HOUSE_BUDGET } else { budget };
    let outcome = carry_out::<R>(recipe, policy, memory, room, budget);
    write_report(&outcome, report);
    outcome.number.into()
}

/// The house policy: 16 sets of four cameras under union; ports verdict (clearance 0) and alarm (15).
pub fn house_policy(out: &mut [u8]) -> u32 {
    if out.len() < HOUSE_POLICY_LENGTH {
        return number::HOUSE_BUFFER.into();
    }
    out[..8].copy_from_slice(&[b'R', b'J', b'P', 1, 0, 0, 16, 2]);
    for row in 0..16u8 {
        for column in 0..16u8 {
            out[8 + usize::from(row) * 16 + usize::from(column)] = row | column;
        }
    }
    out[264..266].copy_from_slice(&[0, 15]);
    number::DONE.into()
}
