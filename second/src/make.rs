//! Cases: recipes, policies and memories, sound and damaged, each made from a seed and a case number.

mod damage;
mod policies;
mod programs;
pub mod random;
mod secrets;
mod shapes;
mod stage;
pub mod tables;

use crate::machine::{self, Outcome, Paper, Tag};
use damage::Draft;
use random::Random;
use secrets::Cast;
use tables::{memory_bytes, Place, PolicyTable, RecipeTable};

/// What a run starts from, apart from recipe and policy.
#[derive(Clone, Debug, PartialEq, Eq)]
pub struct Start {
    pub memory: Vec<u8>,
    pub room: usize,
    pub budget: u32,
}

/// A comparison has one start, a pair of runs two.
#[derive(Clone, Debug, PartialEq, Eq)]
pub struct Case {
    pub recipe: Vec<u8>,
    pub policy: Vec<u8>,
    pub starts: Vec<Start>,
    /// The length of the report buffer.
    pub report: usize,
    /// Who watches a pair of runs.
    pub viewer: Option<Tag>,
    /// What the lent buffers hold before the call, and how they lie in memory.
    pub poison: u64,
}

/// A sound case before it is put into bytes. Budget and room are drawn later where the plan leaves them open.
pub struct Plan {
    recipe: RecipeTable,
    policy: PolicyTable,
    memory: Vec<Place>,
    room: Option<usize>,
    budget: Option<u32>,
}

impl Plan {
    fn new(recipe: RecipeTable, policy: PolicyTable, memory: Vec<Place>) -> Plan {
        Plan {
            recipe,
            policy,
            memory,
            room: None,
            budget: None,
        }
    }
}

/// Steps after which a trial run is given up.
const TRIAL_BUDGET: u32 = 1_500;
/// Enough for every record of a trial run.
const TRIAL_ROOM: usize = 5 * TRIAL_BUDGET as usize;

/// How far a plan comes if nothing lends too little.
fn trial(plan: &Plan) -> Outcome {
    let mut memory = memory_bytes(&plan.memory);
    let mut room = vec![0; TRIAL_ROOM];
    machine::carry_out::<Paper>(
        &plan.recipe.to_bytes(),
        &plan.policy.to_bytes(),
        &mut memory,
        &mut room,
        TRIAL_BUDGET,
    )
}

/// Budgets at, before and after the last step; 0 (the house budget), 1 and huge ones.
fn budget(random: &mut Random, trial: &Outcome) -> u32 {
    let steps = trial.steps.max(1);
    let ended = trial.number != machine::number::BUDGET_USED;
    match random.weighted(&[4, 4, 3, 2, 1, 4, 4]) {
        0 => 0,
        1 => steps,
        2 => (steps - 1).max(1),
        3 => steps + 1,
        4 => 1,
        5 => random.between(1, steps as usize) as u32,
        // Only a run that ends gets a budget that it could not use up in reasonable time.
        _ if ended => random.pick(&[10_000, 65_536, 0x8000_0000, 0xFFFF_0000, u32::MAX]),
        _ => random.between(1, 4_000) as u32,
    }
}

/// Rooms that just hold the records, or just do not, and very small ones.
fn room(random: &mut Random, trial: &Outcome) -> usize {
    let used = 5 * trial.records as usize;
    match random.below(7) {
        0 => random.between(0, 12),
        1 => used,
        2 => used + random.between(1, 6),
        3 => used.saturating_sub(random.between(1, 6)),
        4 => 320,
        5 => random.below(used + 1),
        _ => random.below(400),
    }
}

fn report(random: &mut Random) -> usize {
    match random.chance(60) {
        true => machine::REPORT_LENGTH,
        false => random.between(12, 40),
    }
}

fn comparison_of(random: &mut Random, plan: &Plan) -> Case {
    let outcome = trial(plan);
    let start = Start {
        memory: memory_bytes(&plan.memory),
        room: plan.room.unwrap_or_else(|| room(random, &outcome)),
        budget: plan.budget.unwrap_or_else(|| budget(random, &outcome)),
    };
    Case {
        recipe: plan.recipe.to_bytes(),
        policy: plan.policy.to_bytes(),
        starts: vec![start],
        report: report(random),
        viewer: None,
        poison: random.next(),
    }
}

fn sound_plan(random: &mut Random) -> Plan {
    match random.weighted(&[40, 14, 38, 8]) {
        0 => programs::tree(random),
        1 => programs::web(random),
        2 => shapes::shape(random),
        _ => secrets::scene(random).0,
    }
}

/// The damage may make an endless run of one that ended, so no damaged case keeps a huge budget.
const DAMAGED_BUDGET: u32 = 20_000;

fn damaged(random: &mut Random, plan: &Plan, damage: fn(&mut Random, &mut Draft)) -> Case {
    let mut draft = Draft {
        case: comparison_of(random, plan),
        expressions: plan.recipe.expressions.len(),
        statements: plan.recipe.statements.len(),
        variables: plan.recipe.variables.into(),
        tags: plan.policy.tags,
        ports: plan.policy.clearances.len(),
    };
    let start = &mut draft.case.starts[0];
    start.budget = start.budget.min(DAMAGED_BUDGET);
    damage(random, &mut draft);
    draft.case
}

/// The comparison with this number.
pub fn comparison(seed: u64, number: u64) -> Case {
    let random = &mut Random::of_case(seed, number);
    let plan = sound_plan(random);
    match random.weighted(&[70, 26, 4]) {
        0 => comparison_of(random, &plan),
        1 => damaged(random, &plan, damage::damage),
        _ => damaged(random, &plan, damage::noise),
    }
}

// ---------------------------------------------------------------------------------------------- pairs of runs

/// The same memory to this viewer: what is hidden gets other values, and sometimes other hidden tags.
fn agreeing(random: &mut Random, memory: &[Place], cast: &Cast) -> Vec<Place> {
    let mut other = memory.to_vec();
    for place in &mut other {
        if !cast.hidden.contains(&place.tag) || random.chance(15) {
            continue;
        }
        place.value = match random.chance(85) {
            true => random.below(3) as i32,
            false => programs::any_value(random),
        };
        if random.chance(12) {
            place.tag = random.pick(&cast.hidden);
        }
    }
    other
}

/// Mostly enough of both, so that most pairs come to their ends.
fn start(random: &mut Random, memory: &[Place]) -> Start {
    Start {
        memory: memory_bytes(memory),
        room: match random.chance(70) {
            true => 400,
            false => random.below(40),
        },
        budget: match random.weighted(&[14, 5, 1]) {
            0 => 2_000,
            1 => random.between(1, 40) as u32,
            _ => 0,
        },
    }
}

fn pair_plan(random: &mut Random) -> (Plan, Cast) {
    let plan = match random.weighted(&[6, 2, 1]) {
        0 => return secrets::scene(random),
        1 => programs::tree(random),
        _ => shapes::shape(random),
    };
    let viewer = random.below(plan.policy.tags) as Tag;
    let cast = Cast::new(&plan.policy, viewer);
    (plan, cast)
}

/// The pair of runs with this number.
pub fn pair(seed: u64, number: u64) -> Case {
    let random = &mut Random::of_case(seed ^ 0x5EC2E7, number);
    let (plan, cast) = pair_plan(random);
    let other = agreeing(random, &plan.memory, &cast);
    Case {
        recipe: plan.recipe.to_bytes(),
        policy: plan.policy.to_bytes(),
        starts: vec![start(random, &plan.memory), start(random, &other)],
        report: machine::REPORT_LENGTH,
        viewer: Some(cast.viewer),
        poison: random.next(),
    }
}
