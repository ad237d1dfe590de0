//! Policies: every finite lattice is a family of sets that holds the empty set and is closed under union (its
//! complements are a closure system), so all of them are made as such families and numbered at will.

use super::random::Random;
use super::tables::PolicyTable;
use crate::machine::Tag;

const MOST_TAGS: usize = 16;

/// A family of sets, as bits; the first is the empty set.
type Family = Vec<u32>;

fn chain(tags: usize) -> Family {
    (0..tags).map(|size| (1u32 << size) - 1).collect()
}

fn power_set(cameras: usize) -> Family {
    (0..1u32 << cameras).collect()
}

/// A least tag, `middle` tags of which any two join to the greatest, and the greatest: M3 for 3.
fn diamond(middle: usize) -> Family {
    let all = (1u32 << middle) - 1;
    let mut family = vec![0];
    family.extend((0..middle).map(|bit| all ^ (1 << bit)));
    family.push(all);
    family
}

/// N5, the smallest lattice that is not modular.
fn pentagon() -> Family {
    vec![0, 0b001, 0b101, 0b110, 0b111]
}

fn product(first: &Family, second: &Family) -> Family {
    let pairs = first
        .iter()
        .flat_map(|&one| second.iter().map(move |&two| one | two << 16));
    pairs.collect()
}

fn small(random: &mut Random) -> Family {
    match random.below(4) {
        0 => chain(random.between(2, 4)),
        1 => pentagon(),
        2 => diamond(3),
        _ => power_set(random.between(1, 2)),
    }
}

fn small_product(random: &mut Random) -> Family {
    loop {
        let family = product(&small(random), &small(random));
        if family.len() <= MOST_TAGS {
            return family;
        }
    }
}

/// Some random sets and all their unions.
fn closure(random: &mut Random) -> Family {
    loop {
        let bits = random.between(2, 7);
        let mut family = vec![0u32];
        for _ in 0..random.between(1, 7) {
            let added = random.next() as u32 & ((1 << bits) - 1);
            let unions: Family = family.iter().map(|&set| set | added).collect();
            family.extend(unions);
            family.sort_unstable();
            family.dedup();
        }
        if family.len() <= MOST_TAGS {
            return family;
        }
    }
}

fn family(random: &mut Random) -> Family {
    match random.weighted(&[2, 8, 4, 4, 3, 5, 12]) {
        0 => chain(1),
        1 => chain(2),
        2 => chain(random.between(3, MOST_TAGS)),
        3 => power_set(random.between(2, 4)),
        4 => [diamond(3), pentagon(), diamond(random.between(4, 14))][random.below(3)].clone(),
        5 => small_product(random),
        _ => closure(random),
    }
}

/// The joins of a family, tag t being its set number t.
fn joins(family: &Family) -> Vec<Tag> {
    let tag_of = |set: u32| {
        let found = family.iter().position(|&other| other == set);
        found.expect("the family is closed under union") as Tag
    };
    let unions = family
        .iter()
        .flat_map(|&row| family.iter().map(move |&column| row | column));
    unions.map(tag_of).collect()
}

fn clearances(random: &mut Random, tags: usize, top: Tag) -> Vec<Tag> {
    let ports = match random.weighted(&[1, 12, 1]) {
        0 => 0,
        1 => random.between(1, 5),
        _ => random.between(6, 16),
    };
    let mut clearance = |_| match random.below(4) {
        0 => 0,
        1 => top,
        _ => random.below(tags) as Tag,
    };
    (0..ports).map(&mut clearance).collect()
}

/// The house policy, as the paper describes it.
fn house() -> PolicyTable {
    PolicyTable {
        tags: 16,
        joins: joins(&power_set(4)),
        clearances: vec![0, 15],
    }
}

/// A sound policy. Only the least tag has a fixed number, 0.
pub fn policy(random: &mut Random) -> PolicyTable {
    if random.chance(5) {
        return house();
    }
    let mut family = family(random);
    random.shuffle(&mut family[1..]);
    let mut policy = PolicyTable {
        tags: family.len(),
        joins: joins(&family),
        clearances: Vec::new(),
    };
    policy.clearances = clearances(random, policy.tags, policy.top());
    policy
}

/// A sound policy that has something to hide, and a port of clearance 0.
pub fn hiding_policy(random: &mut Random) -> PolicyTable {
    loop {
        let mut policy = policy(random);
        if policy.tags > 1 && !policy.clearances.is_empty() {
            policy.clearances[0] = 0;
            return policy;
        }
    }
}

/// Two tags, ports 0 and 1 of clearance 0 and 1: the paper's example.
pub fn two_tags() -> PolicyTable {
    PolicyTable {
        tags: 2,
        joins: joins(&chain(2)),
        clearances: vec![0, 1],
    }
}
