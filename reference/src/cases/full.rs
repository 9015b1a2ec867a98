//! Tables with all 64 spaces, 256 bindings, 256 access records and 512
//! delegations.

use super::random::Random;
use super::scenes::{self, Scene};
use super::webs::{web, Plan};
use crate::limits;
use crate::table::{AccessRecord, Binding, Delegation, Key, Path, Space, Table, Target};

/// A table of full size: any, one where everything is about one request, or
/// the one with the longest derivation.
pub fn full(random: &mut Random) -> Scene {
    match random.below(3) {
        0 => full_web(random, 85, 80, 65),
        1 => full_web(random, 100, 100, 100),
        _ => longest(random),
    }
}

fn full_web(random: &mut Random, to_the_point: u64, live: u64, owner_named: u64) -> Scene {
    let plan = Plan {
        spaces: limits::SPACES as usize,
        base_names: 4,
        bound: 100,
        access_records: limits::ACCESS_RECORDS as usize,
        delegations: limits::DELEGATIONS as usize,
        to_the_point,
        live,
        owner_named,
    };
    web(random, &plan)
}

/// The rungs of the longest chain; the owner is the space after them.
const RUNGS: usize = 15;
const OWNER: Space = Space(RUNGS);
const NEXT: u32 = 1;
const OWNER_NAME: u32 = 2;

/// A table with a grant whose chain has 16 records and whose derivation needs
/// every one of the 256 bindings: each rung's name of the owner goes through
/// one long line of bindings.
pub fn longest(random: &mut Random) -> Scene {
    let mut spaces = scenes::keys(random, limits::SPACES as usize + 1);
    let end = spaces.pop().unwrap_or(Key(1));
    let mut table = Table {
        spaces,
        ..Table::default()
    };
    table.bindings = rung_bindings(&table, end);
    let line = line_of_bindings(limits::BINDINGS as usize - table.bindings.len());
    table.bindings.extend(line);
    order_bindings(random, &mut table.bindings);
    table.access_records = access_records(random);
    table.delegations = delegations(random);
    Scene {
        table,
        owner: Some(OWNER),
        object: 7,
        right: 2,
        subject: Some(end),
    }
}

fn rung_bindings(table: &Table, end: Key) -> Vec<Binding> {
    let mut bindings = vec![Binding {
        space: OWNER,
        base_name: NEXT,
        target: Target::Key(table.spaces[0]),
    }];
    for rung in 0..RUNGS {
        let next = if rung + 1 < RUNGS {
            Target::Name(Space(rung + 1), Path::new())
        } else {
            Target::Key(end)
        };
        bindings.push(Binding {
            space: Space(rung),
            base_name: NEXT,
            target: next,
        });
        bindings.push(Binding {
            space: Space(rung),
            base_name: OWNER_NAME,
            target: Target::Name(Space(0), vec![3]),
        });
    }
    bindings
}

/// So many bindings, each to the name of the next, the last one to the owner.
fn line_of_bindings(count: usize) -> Vec<Binding> {
    let spaces = limits::SPACES as usize;
    let place = |at: usize| (Space(at % spaces), 3 + (at / spaces) as u32);
    let mut line = Vec::new();
    for at in 0..count {
        let (space, base_name) = place(at);
        let (next_space, next_name) = place(at + 1);
        let target = if at + 1 < count {
            Target::Name(next_space, vec![next_name])
        } else {
            Target::Name(OWNER, Path::new())
        };
        line.push(Binding {
            space,
            base_name,
            target,
        });
    }
    line
}

fn order_bindings(random: &mut Random, bindings: &mut [Binding]) {
    match random.below(3) {
        0 => bindings.reverse(),
        1 => random.shuffle(bindings),
        _ => {}
    }
}

/// The deep record comes last, after shallower ones of the same name.
fn access_records(random: &mut Random) -> Vec<AccessRecord> {
    let count = limits::ACCESS_RECORDS as usize;
    let last = count - 1;
    (0..count)
        .map(|at| AccessRecord {
            owner: OWNER,
            object: 7,
            right: 2,
            path: vec![NEXT],
            depth: if at == last {
                limits::GREATEST_DEPTH
            } else {
                random.between(0, limits::GREATEST_DEPTH - 1)
            },
        })
        .collect()
}

/// The delegations that matter come last and from the end of the chain to its
/// start, after others that are too shallow.
fn delegations(random: &mut Random) -> Vec<Delegation> {
    let mut delegations = Vec::new();
    for _ in RUNGS..limits::DELEGATIONS as usize {
        let rung = random.place(RUNGS - 1);
        let depth = random.between(0, depth_needed(rung) - 1);
        delegations.push(step_from(rung, depth));
    }
    for rung in (0..RUNGS).rev() {
        delegations.push(step_from(rung, depth_needed(rung)));
    }
    delegations
}

/// The depth at which this rung must delegate for the end to have access at 0.
fn depth_needed(rung: usize) -> u32 {
    (RUNGS - 1 - rung) as u32
}

fn step_from(rung: usize, depth: u32) -> Delegation {
    Delegation {
        writer: Space(rung),
        owner_path: vec![OWNER_NAME],
        object: 7,
        right: 2,
        delegatee_path: vec![NEXT],
        depth,
    }
}
