//! The recipe machine in safe Rust, written to be fast.
//!
//! As in threaded.c the tables are decoded once while they are checked, leaves
//! share one array of places, a tag is the set of the tags that it lies under,
//! so that a join is one AND (threaded.c says why that is exact), and a statement
//! holds the function that begins it, chosen by its kind and by the shape of
//! its expression. These functions call each other in tail position, so the
//! state of the run stays in argument registers.
//!
//! Rust does not promise to turn such calls into jumps, though it does so when
//! it optimizes. So a run goes in stretches of at most STRETCH steps: with
//! jumps that costs nothing to speak of, and without them the stack stays
//! small.

#![forbid(unsafe_code)]

const MOST_EXPRESSIONS: usize = 1024;
const MOST_STATEMENTS: usize = 512;
const MOST_VARIABLES: usize = 64;
const MOST_CELLS: usize = 1024;
const MOST_TAGS: usize = 16;
const MOST_PORTS: usize = 16;
const MOST_SPREAD: u32 = 256;
const HOUSE_BUDGET: u32 = 10_000;

const CELLS_AT: usize = MOST_VARIABLES;
const CONSTANTS_AT: usize = CELLS_AT + MOST_CELLS;
const PLACES: usize = CONSTANTS_AT + MOST_EXPRESSIONS;

const STRETCH: u32 = 250;

/// A value with the set of tags that its tag lies under. As the answer of an
/// evaluation, an empty set marks a fault, and the value is its number.
#[derive(Clone, Copy)]
struct Place {
    value: u32,
    above: u32,
}

const fn fault(number: u32) -> Place {
    Place { value: number, above: 0 }
}

/// Works out a node.
type Find = fn(&Code, &Machine, &Node) -> Place;

/// One step, and then the next: the statement in hand, the frames held, the
/// steps left in this stretch, the branch tag's set.
type Step = fn(&Code, &mut Machine, &Statement, usize, u32, u32);

/// An expression: operands are places where they are leaves, else nodes. A
/// leaf's own place is its `a`.
#[derive(Clone, Copy)]
struct Node {
    find: Find,
    a: u16,
    b: u16,
    shape: u8,
    more: u8, // spread - 1
}

/// A statement: `a` and `b` are its expression's operands where that is flat;
/// `c` and `d` are a variable, a port, statements, a clearance's set.
#[derive(Clone, Copy)]
struct Statement {
    begin: Step,
    a: u16,
    b: u16,
    c: u16,
    d: u16,
}

#[derive(Clone, Copy)]
struct Frame {
    take: Step,
    at: u16,
    above: u32,
}

/// What the run only reads.
struct Code {
    node: [Node; MOST_EXPRESSIONS],
    statement: [Statement; MOST_STATEMENTS],
}

/// What the run changes; the lowest frame ends it.
struct Machine<'a> {
    place: [Place; PLACES],
    frame: [Frame; 1 + MOST_STATEMENTS],
    limit: usize,
    cells: u32,
    room: &'a mut [u8], // for further records
    halt: Halt,
}

/// Where a stretch has halted: at an end, or with the step that comes next.
#[derive(Clone, Copy)]
struct Halt {
    end: Option<u32>,
    next: Step,
    at: usize,
    depth: usize,
    left: u32,
    above: u32,
}

/// How a statement comes by its expression's value: a leaf, one operator over
/// leaves, or through the nodes. After LEAF the order is that of the paper's
/// operators, a cell before the unary ones.
mod shape {
    pub const LEAF: u8 = 0;
    pub const CELL: u8 = 1;
    pub const NEG: u8 = 2;
    pub const NOT: u8 = 3;
    pub const ABS: u8 = 4;
    pub const ADD: u8 = 5;
    pub const SUB: u8 = 6;
    pub const MUL: u8 = 7;
    pub const DIV: u8 = 8;
    pub const REM: u8 = 9;
    pub const LESS: u8 = 10;
    pub const MOST: u8 = 11;
    pub const SAME: u8 = 12;
    pub const OTHER: u8 = 13;
    pub const DEEP: u8 = 14;
    pub const COUNT: usize = 15;
}

const fn is_binary(shape: u8) -> bool {
    shape >= shape::ADD && shape <= shape::OTHER
}

/// Whether an evaluation of this shape can end the run.
const fn can_fail(shape: u8) -> bool {
    matches!(shape, shape::CELL | shape::DIV | shape::REM | shape::DEEP)
}

// ---- one operator

#[inline(always)]
fn apply_binary<const SHAPE: u8>(x: Place, y: Place) -> Place {
    let (l, r) = (x.value as i32, y.value as i32);
    let value = match SHAPE {
        shape::ADD => x.value.wrapping_add(y.value),
        shape::SUB => x.value.wrapping_sub(y.value),
        shape::MUL => x.value.wrapping_mul(y.value),
        shape::DIV if r == 0 => return fault(6),
        shape::DIV => l.wrapping_div(r) as u32,
        shape::REM if r == 0 => return fault(6),
        shape::REM => l.wrapping_rem(r) as u32,
        shape::LESS => (l < r) as u32,
        shape::MOST => (l <= r) as u32,
        shape::SAME => (l == r) as u32,
        _ => (l != r) as u32,
    };
    Place { value, above: x.above & y.above }
}

#[inline(always)]
fn apply_unary<const SHAPE: u8>(m: &Machine, x: Place) -> Place {
    let value = match SHAPE {
        shape::CELL => {
            if x.value >= m.cells {
                return fault(5);
            }
            let c = m.place[CELLS_AT + x.value as usize];
            return Place { value: c.value, above: c.above & x.above };
        }
        shape::NEG => x.value.wrapping_neg(),
        shape::NOT => (x.value == 0) as u32,
        shape::ABS => (x.value as i32).wrapping_abs() as u32,
        _ => x.value, // a leaf
    };
    Place { value, above: x.above }
}

// ---- evaluation

#[inline(always)]
fn find(c: &Code, m: &Machine, e: u16) -> Place {
    let n = &c.node[e as usize % MOST_EXPRESSIONS];
    (n.find)(c, m, n)
}

/// A node, by its operator and by which operands are deep.
fn node<const SHAPE: u8, const LEFT: bool, const RIGHT: bool>(
    c: &Code, m: &Machine, n: &Node,
) -> Place {
    let x = if LEFT { find(c, m, n.a) } else { m.place[n.a as usize] };
    if LEFT && x.above == 0 {
        return x;
    }
    if !is_binary(SHAPE) {
        return apply_unary::<SHAPE>(m, x);
    }
    let y = if RIGHT { find(c, m, n.b) } else { m.place[n.b as usize] };
    if RIGHT && y.above == 0 {
        return y;
    }
    apply_binary::<SHAPE>(x, y)
}

/// A statement's expression.
#[inline(always)]
fn get<const SHAPE: u8>(c: &Code, m: &Machine, a: u16, b: u16) -> Place {
    if SHAPE == shape::DEEP {
        return find(c, m, a);
    }
    let x = m.place[a as usize];
    if is_binary(SHAPE) {
        apply_binary::<SHAPE>(x, m.place[b as usize])
    } else {
        apply_unary::<SHAPE>(m, x)
    }
}

// ---- the steps

/// Does the tag with the set `low` lie under the tag with the set `high`?
#[inline(always)]
fn under(low: u32, high: u32) -> bool {
    low & high == high
}

/// A statement's number, from where it lies.
fn number_of(c: &Code, s: &Statement) -> usize {
    (core::ptr::from_ref(s).addr() - c.statement.as_ptr().addr()) / size_of::<Statement>()
}

#[cold]
#[inline(never)]
fn pause(c: &Code, m: &mut Machine, s: &Statement, depth: usize, above: u32, next: Step) {
    m.halt = Halt { end: None, next, at: number_of(c, s), depth, left: 0, above };
}

#[cold]
#[inline(never)]
fn stop(c: &Code, m: &mut Machine, s: &Statement, left: u32, end: u32) {
    m.halt.end = Some(end);
    m.halt.at = number_of(c, s);
    m.halt.left = left;
}

fn done(_: &Code, m: &mut Machine, _: &Statement, _: usize, left: u32, _: u32) {
    m.halt.end = Some(0);
    m.halt.at = 0;
    m.halt.left = left;
}

#[inline(always)]
fn begin(c: &Code, m: &mut Machine, s: u16, depth: usize, left: u32, above: u32) {
    let s = &c.statement[s as usize % MOST_STATEMENTS];
    (s.begin)(c, m, s, depth, left, above)
}

#[inline(always)]
fn take(c: &Code, m: &mut Machine, s: &Statement, depth: usize, left: u32, above: u32) {
    (m.frame[depth].take)(c, m, s, depth, left, above)
}

fn take_next(c: &Code, m: &mut Machine, s: &Statement, depth: usize, left: u32, above: u32) {
    if left == 0 {
        return pause(c, m, s, depth, above, take_next);
    }
    begin(c, m, m.frame[depth].at, depth - 1, left - 1, above)
}

fn take_join(c: &Code, m: &mut Machine, s: &Statement, depth: usize, left: u32, above: u32) {
    if left == 0 {
        return pause(c, m, s, depth, above, take_join);
    }
    let above = m.frame[depth].above;
    take(c, m, s, depth - 1, left - 1, above)
}

fn skip(c: &Code, m: &mut Machine, s: &Statement, depth: usize, left: u32, above: u32) {
    if left == 0 {
        return pause(c, m, s, depth, above, skip);
    }
    take(c, m, s, depth, left - 1, above)
}

fn then(c: &Code, m: &mut Machine, s: &Statement, depth: usize, left: u32, above: u32) {
    if left == 0 {
        return pause(c, m, s, depth, above, then);
    }
    let left = left - 1;
    if depth >= m.limit {
        return stop(c, m, s, left, 8);
    }
    m.frame[depth + 1] = Frame { take: take_next, at: s.c, above: 0 };
    begin(c, m, s.a, depth + 1, left, above)
}

fn assign<const K: u8>(
    c: &Code, m: &mut Machine, s: &Statement, depth: usize, left: u32, above: u32,
) {
    if left == 0 {
        return pause(c, m, s, depth, above, assign::<K>);
    }
    let left = left - 1;
    let x = get::<K>(c, m, s.a, s.b);
    if can_fail(K) && x.above == 0 {
        return stop(c, m, s, left, x.value);
    }
    let old = &mut m.place[s.c as usize];
    if !under(above, old.above) {
        return stop(c, m, s, left, 2);
    }
    *old = Place { value: x.value, above: above & x.above };
    take(c, m, s, depth, left, above)
}

fn store<const INDEX: u8, const VALUE: u8>(
    c: &Code, m: &mut Machine, s: &Statement, depth: usize, left: u32, above: u32,
) {
    if left == 0 {
        return pause(c, m, s, depth, above, store::<INDEX, VALUE>);
    }
    let left = left - 1;
    let i = get::<INDEX>(c, m, s.a, 0);
    if can_fail(INDEX) && i.above == 0 {
        return stop(c, m, s, left, i.value);
    }
    let x = get::<VALUE>(c, m, s.b, 0);
    if can_fail(VALUE) && x.above == 0 {
        return stop(c, m, s, left, x.value);
    }
    if i.value >= m.cells {
        return stop(c, m, s, left, 5);
    }
    let old = &mut m.place[CELLS_AT + i.value as usize];
    let both = above & i.above;
    if !under(both, old.above) {
        return stop(c, m, s, left, 3);
    }
    *old = Place { value: x.value, above: both & x.above };
    take(c, m, s, depth, left, above)
}

fn test<const K: u8>(
    c: &Code, m: &mut Machine, s: &Statement, depth: usize, left: u32, above: u32,
) {
    if left == 0 {
        return pause(c, m, s, depth, above, test::<K>);
    }
    let left = left - 1;
    let x = get::<K>(c, m, s.a, s.b);
    if can_fail(K) && x.above == 0 {
        return stop(c, m, s, left, x.value);
    }
    if depth >= m.limit {
        return stop(c, m, s, left, 8);
    }
    m.frame[depth + 1] = Frame { take: take_join, at: 0, above };
    if x.value != 0 {
        return begin(c, m, s.c, depth + 1, left, above & x.above);
    }
    begin(c, m, s.d, depth + 1, left, above & x.above)
}

fn repeat<const K: u8>(
    c: &Code, m: &mut Machine, s: &Statement, depth: usize, left: u32, above: u32,
) {
    if left == 0 {
        return pause(c, m, s, depth, above, repeat::<K>);
    }
    let left = left - 1;
    let x = get::<K>(c, m, s.a, s.b);
    if can_fail(K) && x.above == 0 {
        return stop(c, m, s, left, x.value);
    }
    if x.value == 0 {
        return take(c, m, s, depth, left, above);
    }
    if depth >= m.limit {
        return stop(c, m, s, left, 8);
    }
    m.frame[depth + 1] = Frame { take: again::<K>, at: number_of(c, s) as u16, above };
    begin(c, m, s.c, depth + 1, left, above & x.above)
}

fn again<const K: u8>(
    c: &Code, m: &mut Machine, s: &Statement, depth: usize, left: u32, above: u32,
) {
    if left == 0 {
        return pause(c, m, s, depth, above, again::<K>);
    }
    let left = left - 1;
    let f = m.frame[depth];
    let s = &c.statement[f.at as usize % MOST_STATEMENTS];
    let x = get::<K>(c, m, s.a, s.b);
    if can_fail(K) && x.above == 0 {
        return stop(c, m, s, left, x.value);
    }
    if x.value != 0 {
        return begin(c, m, s.c, depth, left, above & x.above);
    }
    take(c, m, s, depth - 1, left, f.above)
}

fn emit<const K: u8>(
    c: &Code, m: &mut Machine, s: &Statement, depth: usize, left: u32, above: u32,
) {
    if left == 0 {
        return pause(c, m, s, depth, above, emit::<K>);
    }
    let left = left - 1;
    let x = get::<K>(c, m, s.a, s.b);
    if can_fail(K) && x.above == 0 {
        return stop(c, m, s, left, x.value);
    }
    if !under(above & x.above, s.d as u32) {
        return stop(c, m, s, left, 4);
    }
    if m.room.len() < 5 {
        return stop(c, m, s, left, 7);
    }
    let (record, rest) = core::mem::take(&mut m.room).split_at_mut(5);
    record[0] = s.c as u8;
    record[1..].copy_from_slice(&x.value.to_le_bytes());
    m.room = rest;
    take(c, m, s, depth, left, above)
}

/// One function for each shape.
macro_rules! by_shape {
    ($f:ident) => {
        [
            $f::<0>, $f::<1>, $f::<2>, $f::<3>, $f::<4>, $f::<5>, $f::<6>, $f::<7>, $f::<8>,
            $f::<9>, $f::<10>, $f::<11>, $f::<12>, $f::<13>, $f::<14>,
        ]
    };
}
static ASSIGNS: [Step; shape::COUNT] = by_shape!(assign);
static TESTS: [Step; shape::COUNT] = by_shape!(test);
static REPEATS: [Step; shape::COUNT] = by_shape!(repeat);
static EMITS: [Step; shape::COUNT] = by_shape!(emit);
static STORES: [[Step; 2]; 2] = [
    [store::<{ shape::LEAF }, { shape::LEAF }>, store::<{ shape::LEAF }, { shape::DEEP }>],
    [store::<{ shape::DEEP }, { shape::LEAF }>, store::<{ shape::DEEP }, { shape::DEEP }>],
];

/// A node's functions: left, then right operand deep.
macro_rules! by_operands {
    ($($k:literal)*) => {
        [$([
            [node::<$k, false, false>, node::<$k, false, true>],
            [node::<$k, true, false>, node::<$k, true, true>],
        ],)*]
    };
}
static NODES: [[[Find; 2]; 2]; shape::COUNT - 1] = by_operands!(0 1 2 3 4 5 6 7 8 9 10 11 12 13);

struct Ran {
    end: u32,
    place: u32,
    left: u32,
    records: u32,
}

/// Stretch after stretch, from the step in `halt`.
fn run(c: &Code, m: &mut Machine, budget: u32) -> Ran {
    let mut rest = budget;
    let room = m.room.len();
    loop {
        let stretch = rest.min(STRETCH);
        let Halt { next, at, depth, above, .. } = m.halt;
        rest -= stretch;
        next(c, m, &c.statement[at % MOST_STATEMENTS], depth, stretch, above);
        let records = ((room - m.room.len()) / 5) as u32;
        if let Some(end) = m.halt.end {
            return Ran { end, place: m.halt.at as u32, left: rest + m.halt.left, records };
        }
        if rest == 0 {
            return Ran { end: 1, place: 0, left: 0, records };
        }
    }
}

// ---- the checks, decoding as they go

/// A refusal: its number and place.
type Checked<T> = Result<T, (u32, usize)>;

fn half(b: &[u8], at: usize) -> usize {
    u16::from_le_bytes([b[at], b[at + 1]]) as usize
}

fn word(b: &[u8], at: usize) -> u32 {
    u32::from_le_bytes([b[at], b[at + 1], b[at + 2], b[at + 3]])
}

struct Counts {
    expressions: usize,
    statements: usize,
    variables: usize,
    cells: usize,
}

fn read_header(r: &[u8]) -> Checked<Counts> {
    let Some(h) = r.first_chunk::<16>() else { return Err((16, 0)) };
    if h[..3] != *b"RJR" {
        return Err((17, 0));
    }
    if half(h, 3) != 1 {
        return Err((18, 0));
    }
    let n = Counts {
        expressions: half(h, 6),
        statements: half(h, 8),
        variables: half(h, 10),
        cells: half(h, 12),
    };
    if h[5] != 0
        || half(h, 14) != 0
        || n.expressions > MOST_EXPRESSIONS
        || n.statements < 1
        || n.statements > MOST_STATEMENTS
        || n.variables > MOST_VARIABLES
        || n.cells > MOST_CELLS
    {
        return Err((19, 0));
    }
    if r.len() != 16 + 8 * (n.expressions + n.statements) {
        return Err((16, 0));
    }
    Ok(n)
}

const NO_NODE: Node =
    Node { find: node::<{ shape::LEAF }, false, false>, a: 0, b: 0, shape: shape::LEAF, more: 0 };
const NO_STATEMENT: Statement = Statement { begin: skip, a: 0, b: 0, c: 0, d: 0 };
const NO_FRAME: Frame = Frame { take: done, at: 0, above: 0 };

/// An operand as its user names it: a place, or its own number.
fn operand(node: &Node, e: usize) -> u16 {
    if node.shape == shape::LEAF { node.a } else { e as u16 }
}

fn read_expressions(
    c: &mut Code, constants: &mut [Place], r: &[u8], variables: usize,
) -> Checked<()> {
    for (e, x) in r.chunks_exact(8).enumerate() {
        let (kind, op, a, b) = (x[0], x[1], half(x, 2), word(x, 4));
        let malformed = match kind {
            1 => op != 0 || a != 0,
            2 => op != 0 || a >= variables || b != 0,
            3 => op != 0 || a >= e || b != 0,
            4 => op > 2 || a >= e || b != 0,
            5 => op > 8 || a >= e || b as usize >= e,
            _ => true,
        };
        if malformed {
            return Err((20, e));
        }
        let mut n = Node { a: a as u16, ..NO_NODE };
        if kind == 1 {
            // Tag 0 lies under all tags, however many there are.
            constants[e] = Place { value: b, above: u32::MAX };
            n.a = (CONSTANTS_AT + e) as u16;
        } else if kind > 2 {
            let left = c.node[a];
            let left_deep = left.shape != shape::LEAF;
            let mut right_deep = false;
            let mut more = 1 + left.more as u32;
            let operator = match kind {
                3 => shape::CELL,
                4 => shape::NEG + op,
                _ => shape::ADD + op,
            };
            n.a = operand(&left, a);
            if kind == 5 {
                let right = c.node[b as usize];
                right_deep = right.shape != shape::LEAF;
                more += 1 + right.more as u32;
                n.b = operand(&right, b as usize);
            }
            if more >= MOST_SPREAD {
                return Err((21, e));
            }
            n.more = more as u8;
            n.shape = if left_deep || right_deep { shape::DEEP } else { operator };
            n.find = NODES[operator as usize][left_deep as usize][right_deep as usize];
        }
        c.node[e] = n;
    }
    Ok(())
}

/// What the run changes, so that only that is written back.
struct Changes {
    variables: bool,
    cells: bool,
}

fn read_statements(
    node: &[Node; MOST_EXPRESSIONS], statements: &mut [Statement; MOST_STATEMENTS], r: &[u8],
    counts: &Counts,
) -> Checked<Changes> {
    let mut changes = Changes { variables: false, cells: false };
    for ((i, x), to) in r.chunks_exact(8).enumerate().zip(statements.iter_mut()) {
        let (kind, port) = (x[0], x[1]);
        let (a, b, c) = (half(x, 2), half(x, 4), half(x, 6));
        let expressions = counts.expressions;
        let malformed = match kind {
            0 => a != 0 || b != 0 || c != 0,
            1 => a >= counts.variables || b >= expressions || c != 0,
            2 => a >= expressions || b >= expressions || c != 0,
            3 => a >= i || b >= i || c != 0,
            4 => a >= expressions || b >= i || c >= i,
            5 => a >= expressions || b >= i || c != 0,
            6 => a >= expressions || b != 0 || c != 0,
            _ => true,
        };
        if malformed || (port != 0 && kind != 6) {
            return Err((22, i));
        }
        let mut s = Statement { a: a as u16, c: b as u16, d: c as u16, ..NO_STATEMENT };
        // A flat expression lends its operands, a deep one its number.
        let held = |s: &mut Statement, by: &[Step; shape::COUNT], e: usize| {
            let n = &node[e];
            let deep = n.shape == shape::DEEP;
            s.begin = by[n.shape as usize];
            s.a = if deep { e as u16 } else { n.a };
            s.b = n.b;
        };
        match kind {
            1 => {
                held(&mut s, &ASSIGNS, b);
                s.c = a as u16;
                changes.variables = true;
            }
            2 => {
                let (index, value) = (&node[a], &node[b]);
                let (deep, value_deep) = (index.shape != shape::LEAF, value.shape != shape::LEAF);
                s.begin = STORES[deep as usize][value_deep as usize];
                s.a = operand(index, a);
                s.b = operand(value, b);
                changes.cells = true;
            }
            3 => s.begin = then,
            4 => held(&mut s, &TESTS, a),
            5 => held(&mut s, &REPEATS, a),
            6 => {
                held(&mut s, &EMITS, a);
                s.c = port as u16;
            }
            _ => {}
        }
        *to = s;
    }
    Ok(changes)
}

/// A policy as the run uses it: each tag's set, and for a set's lowest bit the
/// tag.
struct Tags {
    count: usize,
    ports: usize,
    above: [u32; MOST_TAGS],
    lowest: [u8; MOST_TAGS],
}

fn read_policy(b: &[u8]) -> Checked<Tags> {
    let Some(h) = b.first_chunk::<8>() else { return Err((23, 0)) };
    let (n, ports) = (h[6] as usize, h[7] as usize);
    if h[..6] != *b"RJP\x01\0\0"
        || n < 1
        || n > MOST_TAGS
        || ports > MOST_PORTS
        || b.len() != 8 + n * n + ports
    {
        return Err((23, 0));
    }
    if b[8..].iter().fold(0, |high, &x| high.max(x)) as usize >= n {
        let bad = b[8..].iter().position(|&x| x as usize >= n).unwrap_or(0);
        return Err((24, 8 + bad));
    }
    let joins = &b[8..8 + n * n];
    let mut p = Tags { count: n, ports, above: [0; MOST_TAGS], lowest: [0; MOST_TAGS] };
    let mut upwards = true;
    for (t, row) in joins.chunks_exact(n).enumerate() {
        let mut set = 0u32;
        for (u, &j) in row.iter().enumerate() {
            set |= ((j as usize == u) as u32) << u;
        }
        p.above[t] = set;
        p.lowest[t] = t as u8;
        if row[t] as usize != t || joins[t] as usize != t {
            return Err((25, 0));
        }
        upwards &= set.trailing_zeros() as usize == t;
    }
    for t in 0..n {
        for u in 0..t {
            let j = joins[n * t + u];
            if joins[n * u + t] != j
                || p.above[j as usize % MOST_TAGS] != p.above[t] & p.above[u]
            {
                return Err((25, 0));
            }
        }
    }
    if !upwards {
        order_bits(&mut p);
    }
    Ok(p)
}

/// Numbers the bits so that a tag's own bit is the lowest of its set: by
/// falling size of the set, since a tag above another has the smaller set.
fn order_bits(p: &mut Tags) {
    let old = p.above;
    let mut order: [u8; MOST_TAGS] = core::array::from_fn(|t| t as u8);
    let order = &mut order[..p.count];
    order.sort_unstable_by_key(|&t| core::cmp::Reverse(old[t as usize].count_ones()));
    for t in 0..p.count {
        p.above[t] = 0;
        for (rank, &u) in order.iter().enumerate() {
            p.above[t] |= (old[t] >> u & 1) << rank;
        }
        p.lowest[t] = order[t];
    }
}

/// The clearance of each emit's port, into the statement.
fn read_ports(
    statements: &mut [Statement; MOST_STATEMENTS], r: &[u8], p: &Tags, clearances: &[u8],
) -> Checked<()> {
    for ((i, x), s) in r.chunks_exact(8).enumerate().zip(statements.iter_mut()) {
        if x[0] == 6 {
            let Some(&c) = clearances.get(x[1] as usize) else { return Err((26, i)) };
            s.d = p.above[c as usize % MOST_TAGS] as u16;
        }
    }
    Ok(())
}

fn read_places(to: &mut [Place], first: usize, p: &Tags, memory: &[u8]) -> Checked<()> {
    let from = &memory[5 * first..];
    for (i, (place, b)) in to.iter_mut().zip(from.chunks_exact(5)).enumerate() {
        if b[4] as usize >= p.count {
            return Err((28, first + i));
        }
        *place = Place { value: word(b, 0), above: p.above[b[4] as usize % MOST_TAGS] };
    }
    Ok(())
}

fn write_places(from: &[Place], first: usize, p: &Tags, memory: &mut [u8]) {
    let to = &mut memory[5 * first..];
    for (place, b) in from.iter().zip(to.chunks_exact_mut(5)) {
        b[..4].copy_from_slice(&place.value.to_le_bytes());
        b[4] = p.lowest[place.above.trailing_zeros() as usize % MOST_TAGS];
    }
}

fn checked_and_run(
    recipe: &[u8], policy: &[u8], memory: &mut [u8], records: &mut [u8], budget: u32,
) -> Checked<Ran> {
    let n = read_header(recipe)?;
    let mut c = Code {
        node: [NO_NODE; MOST_EXPRESSIONS],
        statement: [NO_STATEMENT; MOST_STATEMENTS],
    };
    let mut m = Machine {
        place: [fault(0); PLACES],
        frame: [NO_FRAME; 1 + MOST_STATEMENTS],
        limit: n.statements,
        cells: n.cells as u32,
        room: records,
        halt: Halt { end: None, next: skip, at: n.statements - 1, depth: 0, left: 0, above: 0 },
    };
    let (expressions, statements) = recipe[16..].split_at(8 * n.expressions);
    read_expressions(&mut c, &mut m.place[CONSTANTS_AT..], expressions, n.variables)?;
    let changes = read_statements(&c.node, &mut c.statement, statements, &n)?;
    let p = read_policy(policy)?;
    read_ports(&mut c.statement, statements, &p, &policy[policy.len() - p.ports..])?;
    if memory.len() != 5 * (n.variables + n.cells) {
        return Err((27, 0));
    }
    read_places(&mut m.place[..n.variables], 0, &p, memory)?;
    read_places(&mut m.place[CELLS_AT..CELLS_AT + n.cells], n.variables, &p, memory)?;

    m.halt.next = c.statement[n.statements - 1].begin;
    m.halt.above = p.above[0];
    let ran = run(&c, &mut m, budget);
    if changes.variables {
        write_places(&m.place[..n.variables], 0, &p, memory);
    }
    if changes.cells {
        write_places(&m.place[CELLS_AT..CELLS_AT + n.cells], n.variables, &p, memory);
    }
    Ok(ran)
}

pub fn judge(
    recipe: &[u8], policy: &[u8], memory: &mut [u8], records: &mut [u8], report: &mut [u8],
    budget: u32,
) -> u32 {
    let Some(report) = report.first_chunk_mut::<12>() else { return 30 };
    let budget = if budget == 0 { HOUSE_BUDGET } else { budget };
    let (end, place, steps, count) =
        match checked_and_run(recipe, policy, memory, records, budget) {
            Ok(r) => (r.end, r.place, budget - r.left, r.records),
            Err((number, place)) => (number, place as u32, 0, 0),
        };
    report[..4].copy_from_slice(&(end | place << 16).to_le_bytes());
    report[4..8].copy_from_slice(&steps.to_le_bytes());
    report[8..].copy_from_slice(&count.to_le_bytes());
    end
}
