//! Tables of full size.

use super::records::{access, binding, delegation, key, name, spaces};
use super::MOST;
use crate::cases::full::longest;
use crate::cases::random::Random;
use crate::cases::webs::{web, Plan};
use crate::limits;
use crate::table::{AccessRecord, Binding, Delegation, Key, Table};

const SPACES: usize = limits::SPACES as usize;
const ACCESS_RECORDS: usize = limits::ACCESS_RECORDS as usize;
const DELEGATIONS: usize = limits::DELEGATIONS as usize;

/// What a space calls the next one, the owner, the one three further on, and a
/// key that is nobody's space.
const NEXT: u32 = 1;
const OWNER: u32 = 2;
const FAR: u32 = 3;
const LOOSE: u32 = 4;

/// The SELF key of a space of `everything`.
pub fn key_of(space: usize) -> u32 {
    1000 + (space % SPACES) as u32
}

/// The key without a space that this space has a name for.
pub fn loose_key(space: usize) -> u32 {
    5000 + space as u32
}

/// Every section full, and every record is about object 7 of space 0 and
/// right 2: everything matches.
pub fn everything() -> Table {
    Table {
        spaces: (0..SPACES).map(|space| Key(key_of(space))).collect(),
        bindings: (0..SPACES).flat_map(names_of).collect(),
        access_records: (0..ACCESS_RECORDS).map(listed).collect(),
        delegations: (0..DELEGATIONS).map(passed_on).collect(),
    }
}

/// The four bindings of a space.
fn names_of(space: usize) -> [Binding; 4] {
    let next = if space % 2 == 1 {
        name((space + 1) % SPACES, &[])
    } else {
        key(key_of(space + 1))
    };
    let owner = if space < SPACES / 2 {
        name(0, &[])
    } else {
        name(space - SPACES / 2, &[OWNER])
    };
    [
        binding(space, FAR, name(space, &[NEXT, NEXT, NEXT])),
        binding(space, OWNER, owner),
        binding(space, NEXT, next),
        binding(space, LOOSE, key(loose_key(space))),
    ]
}

/// The access records; the deep ones come late.
fn listed(number: usize) -> AccessRecord {
    let paths: [&[u32]; 5] = [&[NEXT], &[FAR], &[NEXT, FAR], &[FAR, LOOSE], &[]];
    let depth = (number * 16 / ACCESS_RECORDS) as u32;
    access(0, paths[number % paths.len()], depth)
}

/// The delegations, eight of each space.
fn passed_on(number: usize) -> Delegation {
    let paths: [&[u32]; 8] = [
        &[NEXT],
        &[FAR],
        &[NEXT, NEXT],
        &[LOOSE],
        &[FAR, LOOSE],
        &[OWNER],
        &[FAR, FAR, FAR, FAR],
        &[],
    ];
    let depth = (number * 5 % 16) as u32;
    delegation(number % SPACES, &[OWNER], paths[number / SPACES], depth)
}

/// The table whose key table is the longest there is: every key and every
/// number as wide as it can be.
pub fn longest_translation() -> Table {
    let mut record = access(0, &[], limits::GREATEST_DEPTH);
    record.object = limits::GREATEST_OBJECT;
    record.right = limits::GREATEST_RIGHT;
    let mut step = delegation(0, &[], &[], limits::GREATEST_DEPTH);
    step.object = limits::GREATEST_OBJECT;
    step.right = limits::GREATEST_RIGHT;
    Table {
        spaces: spaces(&[MOST]),
        bindings: Vec::new(),
        access_records: vec![record; ACCESS_RECORDS],
        delegations: vec![step; DELEGATIONS],
    }
}

/// Spaces and bindings, all there can be, that cross each other at random: the
/// same ones for the same number.
pub fn crossed(number: u64) -> Table {
    let plan = Plan {
        spaces: SPACES,
        base_names: 4,
        bound: 100,
        access_records: 0,
        delegations: 0,
        to_the_point: 100,
        live: 100,
        owner_named: 50,
    };
    web(&mut Random::of(number, 0), &plan).table
}

/// A table whose longest derivation lists every one of its 256 bindings, with
/// the key that it is for.
pub fn longest_derivation(number: u64) -> (Table, Option<Key>) {
    let scene = longest(&mut Random::of(number, 1));
    (scene.table, scene.subject)
}
