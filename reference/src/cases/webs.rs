//! Webs: tables whose spaces, names and records cross each other at random.

use super::random::Random;
use super::scenes::{self, Scene};
use crate::limits;
use crate::names::Names;
use crate::table::{AccessRecord, Binding, Delegation, Key, Path, Space, Table, Target};

/// How large a web is and how closely its records keep to one request.
pub struct Plan {
    pub spaces: usize,
    pub base_names: usize,
    /// Of a hundred base names of a space, so many are bound.
    pub bound: u64,
    pub access_records: usize,
    pub delegations: usize,
    /// Of a hundred records, so many are about the scene's owner, object and
    /// right.
    pub to_the_point: u64,
    /// Of a hundred paths, so many are made to have a meaning.
    pub live: u64,
    /// Of a hundred spaces, so many have a name for the owner.
    pub owner_named: u64,
}

/// One or two spaces.
pub fn tiny(random: &mut Random) -> Scene {
    let plan = Plan {
        spaces: random.count(1, 2),
        base_names: random.count(1, 3),
        bound: random.between(0, 100).into(),
        access_records: random.count(0, 3),
        delegations: random.count(0, 4),
        to_the_point: 80,
        live: 70,
        owner_named: 65,
    };
    web(random, &plan)
}

/// A handful of spaces.
pub fn small(random: &mut Random) -> Scene {
    let plan = Plan {
        spaces: random.count(2, 8),
        base_names: random.count(1, 6),
        bound: random.between(30, 100).into(),
        access_records: random.count(0, 4),
        delegations: random.count(0, 24),
        to_the_point: 85,
        live: 80,
        owner_named: 65,
    };
    web(random, &plan)
}

/// Up to all spaces, and more of everything.
pub fn middling(random: &mut Random) -> Scene {
    let plan = Plan {
        spaces: random.count(9, 64),
        base_names: random.count(2, 6),
        bound: random.between(20, 100).into(),
        access_records: random.count(0, 12),
        delegations: random.count(0, 120),
        to_the_point: 85,
        live: 80,
        owner_named: 65,
    };
    web(random, &plan)
}

/// What the records of a web are made from.
struct Ground {
    /// The spaces and bindings, no records.
    table: Table,
    base_names: Vec<u32>,
    owner: Space,
    object: u32,
    right: u32,
}

/// A web by this plan.
pub fn web(random: &mut Random, plan: &Plan) -> Scene {
    let ground = lay_ground(random, plan);
    let names = Names::of(&ground.table);
    let mut table = ground.table.clone();
    for _ in 0..plan.access_records {
        let record = access_record(random, plan, &ground, &names);
        table.access_records.push(record);
    }
    for _ in 0..plan.delegations {
        let record = delegation(random, plan, &ground, &names);
        table.delegations.push(record);
    }
    repeat_some(random, &mut table.access_records);
    repeat_some(random, &mut table.delegations);
    order_by_depth(random, &mut table);
    Scene {
        table,
        owner: Some(ground.owner),
        object: ground.object,
        right: ground.right,
        subject: None,
    }
}

fn lay_ground(random: &mut Random, plan: &Plan) -> Ground {
    let strangers = random.count(1, 3);
    let mut spaces = scenes::keys(random, plan.spaces + strangers);
    let loose = spaces.split_off(plan.spaces);
    let base_names = scenes::base_names(random, plan.base_names);
    let owner = Space(random.place(plan.spaces));
    let mut table = Table {
        spaces,
        ..Table::default()
    };
    table.bindings = bindings(random, plan, &table, &loose, &base_names, owner);
    if random.chance(25) {
        tie(random, &mut table.bindings, &loose, true);
    }
    if random.chance(25) {
        tie(random, &mut table.bindings, &loose, false);
    }
    Ground {
        table,
        base_names,
        owner,
        object: scenes::object(random),
        right: scenes::right(random),
    }
}

fn bindings(
    random: &mut Random,
    plan: &Plan,
    table: &Table,
    loose: &[Key],
    base_names: &[u32],
    owner: Space,
) -> Vec<Binding> {
    let mut bindings = Vec::new();
    for space in 0..table.spaces.len() {
        for (nth, &base_name) in base_names.iter().enumerate() {
            if !random.chance(plan.bound) {
                continue;
            }
            // The first base name is in most spaces a name of the owner.
            let target = if nth == 0 && random.chance(plan.owner_named) {
                target_to_owner(random, table, base_name, owner)
            } else {
                any_target(random, table, loose, base_names)
            };
            bindings.push(Binding {
                space: Space(space),
                base_name,
                target,
            });
        }
    }
    random.shuffle(&mut bindings);
    bindings.truncate(limits::BINDINGS as usize);
    bindings
}

/// The owner, or what another space calls the owner.
fn target_to_owner(random: &mut Random, table: &Table, base_name: u32, owner: Space) -> Target {
    if random.chance(70) {
        return scenes::target_of(random, table, owner);
    }
    let other = Space(random.place(table.spaces.len()));
    Target::Name(other, vec![base_name])
}

fn any_target(random: &mut Random, table: &Table, loose: &[Key], base_names: &[u32]) -> Target {
    let any = Key(random.between(1, limits::GREATEST_KEY));
    let space = Space(random.place(table.spaces.len()));
    match random.below(20) {
        0..=4 => scenes::target_of(random, table, space),
        5 | 6 => Target::Key(random.pick(loose).unwrap_or(any)),
        7 => Target::Key(any),
        8..=14 => Target::Name(space, one_name(random, base_names)),
        _ => Target::Name(space, scenes::any_path(random, base_names)),
    }
}

fn one_name(random: &mut Random, base_names: &[u32]) -> Path {
    random.pick(base_names).into_iter().collect()
}

/// Makes some bindings lead each to the next: back to the first one, or to a
/// key at the end.
fn tie(random: &mut Random, bindings: &mut [Binding], loose: &[Key], circle: bool) {
    let most = if random.chance(70) { 6 } else { bindings.len() };
    let count = random.count(1, most).min(bindings.len());
    let mut row: Vec<usize> = (0..bindings.len()).collect();
    if random.chance(60) {
        random.shuffle(&mut row);
    } else if random.chance(50) {
        row.reverse();
    }
    row.truncate(count);
    for at in 0..row.len() {
        let next = match (row.get(at + 1), circle) {
            (Some(&next), _) => next,
            (None, true) => row[0],
            (None, false) => {
                if let Some(key) = random.pick(loose) {
                    bindings[row[at]].target = Target::Key(key);
                }
                break;
            }
        };
        let next = Target::Name(bindings[next].space, vec![bindings[next].base_name]);
        bindings[row[at]].target = next;
    }
}

fn access_record(random: &mut Random, plan: &Plan, ground: &Ground, names: &Names) -> AccessRecord {
    let owner = if random.chance(plan.to_the_point) {
        ground.owner
    } else {
        Space(random.place(ground.table.spaces.len()))
    };
    let (object, right) = object_and_right(random, plan, ground);
    AccessRecord {
        owner,
        object,
        right,
        path: path(random, plan, ground, names, owner),
        depth: scenes::depth(random),
    }
}

fn delegation(random: &mut Random, plan: &Plan, ground: &Ground, names: &Names) -> Delegation {
    let writer = Space(random.place(ground.table.spaces.len()));
    let (object, right) = object_and_right(random, plan, ground);
    let to_owner = match (
        names.self_key(ground.owner),
        random.chance(plan.to_the_point),
    ) {
        (Some(key), true) => scenes::path_to(random, &ground.table, names, writer, key),
        _ => None,
    };
    let owner_path = to_owner.unwrap_or_else(|| path(random, plan, ground, names, writer));
    // Now and then one delegates to oneself.
    let delegatee_path = if random.chance(5) {
        Path::new()
    } else {
        path(random, plan, ground, names, writer)
    };
    Delegation {
        writer,
        owner_path,
        object,
        right,
        delegatee_path,
        depth: scenes::depth(random),
    }
}

fn object_and_right(random: &mut Random, plan: &Plan, ground: &Ground) -> (u32, u32) {
    let object = if random.chance(plan.to_the_point.max(90)) {
        ground.object
    } else {
        scenes::object(random)
    };
    let right = if random.chance(plan.to_the_point.max(90)) {
        ground.right
    } else {
        scenes::right(random)
    };
    (object, right)
}

fn path(random: &mut Random, plan: &Plan, ground: &Ground, names: &Names, space: Space) -> Path {
    if !random.chance(plan.live) {
        return scenes::any_path(random, &ground.base_names);
    }
    let path = scenes::live_path(random, &ground.table, names, space);
    if !path.is_empty() {
        return path;
    }
    // The empty path is one's own name: once more, for another.
    scenes::live_path(random, &ground.table, names, space)
}

/// Writes some records over others, so that they repeat.
fn repeat_some<T: Clone>(random: &mut Random, records: &mut [T]) {
    if !random.chance(20) {
        return;
    }
    for _ in 0..random.count(1, 3) {
        let to = random.place(records.len());
        if let Some(record) = random.pick(records) {
            records[to] = record;
        }
    }
}

/// Now and then the deeper records stand later, or earlier.
fn order_by_depth(random: &mut Random, table: &mut Table) {
    match random.below(6) {
        0 => {
            table.access_records.sort_by_key(|record| record.depth);
            table.delegations.sort_by_key(|record| record.depth);
        }
        1 => {
            table.access_records.sort_by_key(|record| 15 - record.depth);
            table.delegations.sort_by_key(|record| 15 - record.depth);
        }
        _ => {}
    }
}
