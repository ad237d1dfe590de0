//! Recipes for pairs of runs: each is a few fragments that carry something hidden towards something seen, by one
//! of the ways that document 01 closes. A machine that leaves one of them open lets the pair drift apart.

use super::policies;
use super::random::Random;
use super::stage::Stage;
use super::tables::{PolicyTable, ADD, NEGATE, SUBTRACT};
use super::Plan;
use crate::machine::Tag;

/// Who may see what.
#[derive(Clone)]
pub struct Cast {
    pub viewer: Tag,
    pub seen: Vec<Tag>,
    pub hidden: Vec<Tag>,
}

impl Cast {
    pub fn new(policy: &PolicyTable, viewer: Tag) -> Cast {
        let (seen, hidden) = policy
            .all_tags()
            .into_iter()
            .partition(|&tag| policy.under(tag, viewer));
        Cast {
            viewer,
            seen,
            hidden,
        }
    }
}

struct Scene {
    random: Random,
    stage: Stage,
    cast: Cast,
    /// Variables that the viewer sees at first.
    open: Vec<u16>,
}

type Fragment = fn(&mut Scene) -> u16;

const FRAGMENTS: [Fragment; 16] = [
    Scene::branch_writes,
    Scene::branch_stores,
    Scene::branch_emits,
    Scene::direct_emit,
    Scene::direct_assign,
    Scene::direct_store,
    Scene::stores_at_hidden,
    Scene::loads_at_hidden,
    Scene::hidden_rounds,
    Scene::raised_rounds,
    Scene::open_rounds,
    Scene::after_inner_if,
    Scene::after_inner_loop,
    Scene::hidden_record,
    Scene::reveal,
    Scene::write_open,
];

/// A plan with a viewer from whom part of the memory is hidden.
pub fn scene(random: &mut Random) -> (Plan, Cast) {
    let policy = policies::hiding_policy(random);
    let cast = hiding_cast(random, &policy);
    let mut scene = Scene {
        random: Random::new(random.next()),
        stage: Stage::new(policy),
        cast: cast.clone(),
        open: Vec::new(),
    };
    scene.write();
    (scene.stage.finish(), cast)
}

/// A viewer who does not see everything.
fn hiding_cast(random: &mut Random, policy: &PolicyTable) -> Cast {
    loop {
        let cast = Cast::new(policy, random.below(policy.tags) as Tag);
        if !cast.hidden.is_empty() {
            return cast;
        }
    }
}

impl Scene {
    fn write(&mut self) {
        let mut statements = Vec::new();
        for _ in 0..self.random.between(1, 4) {
            let fragment = self.random.pick(&FRAGMENTS);
            statements.push(fragment(self));
        }
        if self.random.chance(70) {
            statements.push(self.reveal());
        }
        let whole = self.stage.table.list(&statements);
        if self.random.chance(15) {
            let test = self.read_open();
            self.stage.table.branch(test, whole, whole);
        }
    }

    fn seen_tag(&mut self) -> Tag {
        match self.random.chance(50) {
            true => 0,
            false => self.random.pick(&self.cast.seen),
        }
    }

    fn hidden_tag(&mut self) -> Tag {
        self.random.pick(&self.cast.hidden)
    }

    fn small(&mut self) -> i32 {
        self.random.below(3) as i32
    }

    /// A variable that is hidden, with the tag it has.
    fn secret(&mut self) -> (u16, Tag) {
        let (value, tag) = (self.small(), self.hidden_tag());
        (self.stage.variable(value, tag), tag)
    }

    fn read_secret(&mut self) -> u16 {
        let (secret, _) = self.secret();
        self.stage.table.variable(secret)
    }

    /// A variable that is seen.
    fn open(&mut self) -> u16 {
        if !self.open.is_empty() && self.random.chance(40) {
            return self.random.pick(&self.open);
        }
        let (value, tag) = (self.small(), self.seen_tag());
        let variable = self.stage.variable(value, tag);
        self.open.push(variable);
        variable
    }

    fn read_open(&mut self) -> u16 {
        let variable = self.open();
        self.stage.table.variable(variable)
    }

    /// Where a branch of this tag writes: mostly to what it may write to, so that the paper's machine goes on.
    fn target(&mut self, branch: Tag) -> u16 {
        if self.random.chance(40) {
            return self.open();
        }
        let value = self.small();
        self.stage.variable(value, branch)
    }

    fn constant(&mut self) -> u16 {
        let value = self.random.below(5) as i32;
        self.stage.table.constant(value)
    }

    fn any_port(&mut self) -> u8 {
        self.random.below(self.stage.policy.clearances.len()) as u8
    }

    fn seen_port(&mut self) -> u8 {
        let port = self.any_port();
        let clearance = self.stage.policy.clearances[usize::from(port)];
        match self.cast.seen.contains(&clearance) {
            true => port,
            false => 0,
        }
    }

    /// Some use of a value that is made from a secret.
    fn tainted(&mut self) -> u16 {
        let secret = self.read_secret();
        match self.random.below(5) {
            0 => self.stage.table.unary(NEGATE, secret),
            1 => {
                let other = self.read_open();
                self.stage.table.binary(ADD, secret, other)
            }
            2 => {
                let other = self.constant();
                self.stage.table.binary(SUBTRACT, other, secret)
            }
            3 => {
                let other = self.constant();
                self.stage.table.binary(SUBTRACT, secret, other)
            }
            _ => secret,
        }
    }

    /// The statement, or nothing, as a secret chooses.
    fn chosen(&mut self, test: u16, statement: u16, otherwise: u16) -> u16 {
        match self.random.chance(50) {
            true => self.stage.table.branch(test, statement, otherwise),
            false => self.stage.table.branch(test, otherwise, statement),
        }
    }

    fn branch_writes(&mut self) -> u16 {
        let (secret, tag) = self.secret();
        let target = self.target(tag);
        let value = self.constant();
        let assign = self.stage.table.assign(target, value);
        let skip = self.stage.table.skip();
        let test = self.stage.table.variable(secret);
        self.chosen(test, assign, skip)
    }

    fn branch_stores(&mut self) -> u16 {
        let (secret, tag) = self.secret();
        let tag = match self.random.chance(50) {
            true => tag,
            false => self.seen_tag(),
        };
        let value = self.small();
        let index = self.stage.cell(value, tag);
        let index = self.stage.table.constant(index);
        let value = self.constant();
        let store = self.stage.table.store(index, value);
        let skip = self.stage.table.skip();
        let test = self.stage.table.variable(secret);
        self.chosen(test, store, skip)
    }

    fn branch_emits(&mut self) -> u16 {
        let port = self.seen_port();
        let (one, other) = (self.constant(), self.constant());
        let yes = self.stage.table.emit(port, one);
        let no = self.stage.table.emit(port, other);
        let test = self.tainted();
        self.stage.table.branch(test, yes, no)
    }

    fn direct_emit(&mut self) -> u16 {
        let value = self.tainted();
        let port = self.any_port();
        self.stage.table.emit(port, value)
    }

    fn direct_assign(&mut self) -> u16 {
        let value = self.tainted();
        let variable = self.open();
        self.stage.table.assign(variable, value)
    }

    fn direct_store(&mut self) -> u16 {
        let value = self.tainted();
        let tag = self.seen_tag();
        let index = self.stage.cell(0, tag);
        let index = self.stage.table.constant(index);
        self.stage.table.store(index, value)
    }

    /// An index that is hidden and names one of three new cells.
    fn hidden_index(&mut self, cells: Tag) -> u16 {
        let first = self.stage.cell_count() as i32;
        for value in 0..3 {
            self.stage.cell(value * 10, cells);
        }
        let secret = self.read_secret();
        if first == 0 {
            return secret;
        }
        let first = self.stage.table.constant(first);
        self.stage.table.binary(ADD, first, secret)
    }

    fn stores_at_hidden(&mut self) -> u16 {
        let cells = match self.random.chance(50) {
            true => self.stage.policy.top(),
            false => self.seen_tag(),
        };
        let index = self.hidden_index(cells);
        let value = match self.random.chance(70) {
            true => self.constant(),
            false => self.read_open(),
        };
        self.stage.table.store(index, value)
    }

    fn loads_at_hidden(&mut self) -> u16 {
        let cells = self.seen_tag();
        let index = self.hidden_index(cells);
        let loaded = self.stage.table.cell(index);
        if self.random.chance(50) {
            let port = self.seen_port();
            return self.stage.table.emit(port, loaded);
        }
        let variable = self.open();
        self.stage.table.assign(variable, loaded)
    }

    /// As many rounds as a secret says; what they write must not become seen in a later round.
    fn hidden_rounds(&mut self) -> u16 {
        let (secret, tag) = self.secret();
        let target = self.target(tag);
        let value = self.constant();
        let assign = self.stage.table.assign(target, value);
        let less = self.stage.table.count_down(secret);
        let body = self.stage.table.then(assign, less);
        let test = self.stage.table.variable(secret);
        self.stage.table.repeat(test, body)
    }

    /// The first test is seen, the later ones are hidden.
    fn raised_rounds(&mut self) -> u16 {
        let (secret, _) = self.secret();
        let tag = self.seen_tag();
        let flag = self.stage.variable(1, tag);
        let visible = match self.random.chance(50) {
            true => self.write_open(),
            false => {
                let (port, value) = (self.seen_port(), self.constant());
                self.stage.table.emit(port, value)
            }
        };
        let value = self.stage.table.variable(secret);
        let raise = self.stage.table.assign(flag, value);
        let less = self.stage.table.count_down(secret);
        let body = self.stage.table.list(&[visible, raise, less]);
        let test = self.stage.table.variable(flag);
        self.stage.table.repeat(test, body)
    }

    /// Rounds that anyone may see, with a secret at work inside.
    fn open_rounds(&mut self) -> u16 {
        let tag = self.seen_tag();
        let count = self.stage.variable(2, tag);
        let inside = match self.random.below(3) {
            0 => self.branch_writes(),
            1 => self.hidden_record(),
            _ => self.write_open(),
        };
        let less = self.stage.table.count_down(count);
        let body = self.stage.table.then(inside, less);
        let test = self.stage.table.variable(count);
        self.stage.table.repeat(test, body)
    }

    /// In and after an if inside a hidden branch the branch is hidden still.
    fn after_inner_if(&mut self) -> u16 {
        let inside = match self.random.chance(60) {
            true => self.stage.table.skip(),
            false => self.write_open(),
        };
        let test = self.read_open();
        let inner = self.stage.table.branch(test, inside, inside);
        self.in_hidden_branch(inner)
    }

    /// In and after a while inside a hidden branch too.
    fn after_inner_loop(&mut self) -> u16 {
        let tag = match self.random.chance(60) {
            true => self.stage.policy.top(),
            false => self.seen_tag(),
        };
        let count = self.stage.variable(1, tag);
        let test = self.stage.table.variable(count);
        let less = self.stage.table.count_down(count);
        let inner = self.stage.table.repeat(test, less);
        self.in_hidden_branch(inner)
    }

    fn in_hidden_branch(&mut self, inner: u16) -> u16 {
        let (secret, tag) = self.secret();
        let target = self.target(tag);
        let value = self.constant();
        let after = self.stage.table.assign(target, value);
        let inside = self.stage.table.then(inner, after);
        let test = self.stage.table.variable(secret);
        let skip = self.stage.table.skip();
        self.chosen(test, inside, skip)
    }

    /// A record that the viewer does not see takes room all the same.
    fn hidden_record(&mut self) -> u16 {
        let (secret, tag) = self.secret();
        let cleared = self
            .stage
            .policy
            .clearances
            .iter()
            .position(|&clearance| self.stage.policy.under(tag, clearance));
        let Some(port) = cleared else {
            return self.stage.table.skip();
        };
        let value = self.constant();
        let emit = self.stage.table.emit(port as u8, value);
        let skip = self.stage.table.skip();
        let test = self.stage.table.variable(secret);
        self.chosen(test, emit, skip)
    }

    fn reveal(&mut self) -> u16 {
        let port = self.seen_port();
        let value = self.read_open();
        if self.random.chance(60) {
            return self.stage.table.emit(port, value);
        }
        let constant = self.constant();
        let emit = self.stage.table.emit(port, constant);
        let skip = self.stage.table.skip();
        self.stage.table.branch(value, emit, skip)
    }

    fn write_open(&mut self) -> u16 {
        let variable = self.open();
        let (old, more) = (self.stage.table.variable(variable), self.constant());
        let value = self.stage.table.binary(ADD, old, more);
        self.stage.table.assign(variable, value)
    }
}
