//! Walks: chains made by going on at random, lawful or nearly so.

use super::random::Random;
use super::requests::named;
use super::scenes::Scene;
use crate::access::Step;
use crate::derivation::{used_bindings, Derivation};
use crate::names::Names;
use crate::request::Request;
use crate::table::{Key, Table, Target};

/// A chain made by going on at random: it holds, and need not be the deepest.
pub fn walk(
    random: &mut Random,
    scene: &Scene,
    names: &Names,
    request: &Request,
) -> Option<(Request, Derivation)> {
    walk_with(random, scene, names, request, Licence::None)
}

/// The one rule that a chain may break.
#[derive(Clone, Copy, PartialEq, Eq)]
enum Licence {
    None,
    /// The access record may be another owner's.
    Owner,
    /// The owner path may mean another, or nothing.
    OwnerPath,
    /// The object may be another.
    Object,
    /// The right may be another.
    Right,
    /// The delegation may be written by another.
    Writer,
    /// The depth may be used up.
    Depth,
}

/// A chain that is right but for one rule: where it breaks that rule it must
/// be refused for that alone.
pub fn stray(
    random: &mut Random,
    scene: &Scene,
    names: &Names,
    request: &Request,
) -> Option<(Request, Derivation)> {
    let licence = random.one_of([
        Licence::Owner,
        Licence::OwnerPath,
        Licence::Object,
        Licence::Right,
        Licence::Writer,
        Licence::Depth,
    ]);
    walk_with(random, scene, names, request, licence)
}

fn walk_with(
    random: &mut Random,
    scene: &Scene,
    names: &Names,
    request: &Request,
    licence: Licence,
) -> Option<(Request, Derivation)> {
    let table = &scene.table;
    // The licence is used for the access record, or kept for what follows.
    let at_first = if random.chance(50) {
        licence
    } else {
        Licence::None
    };
    let access_record = random.pick(&possible_records(table, names, request, at_first))?;
    let record = &table.access_records[access_record];
    let start = (names.path(record.owner, &record.path)?, record.depth);
    let (key, delegations) = go_on(random, table, names, request, licence, start);
    let subject = if random.chance(50) {
        Target::Key(key)
    } else {
        named(random, scene, names, key)
    };
    let request = Request {
        subject,
        ..request.clone()
    };
    let bindings = used_bindings(table, names, &request, access_record, &delegations);
    let derivation = Derivation {
        bindings,
        access_record,
        delegations,
    };
    Some((request, derivation))
}

/// Delegations one after another from a key with access at a depth, and the
/// key they end at. Those that need the licence are taken more often.
fn go_on(
    random: &mut Random,
    table: &Table,
    names: &Names,
    request: &Request,
    licence: Licence,
    (mut key, mut depth): (Key, u32),
) -> (Key, Vec<usize>) {
    let steps = possible_steps(table, names, request, licence);
    let lawful = possible_steps(table, names, request, Licence::None);
    let mut delegations = Vec::new();
    while (depth > 0 || licence == Licence::Depth) && delegations.len() < 15 {
        let mut onward = steps.clone();
        onward.retain(|step| step.writer == key || licence == Licence::Writer);
        let mut strange = onward.clone();
        strange.retain(|step| step.writer != key || !lawful.contains(step));
        if !strange.is_empty() && random.chance(60) {
            onward = strange;
        }
        let Some(step) = random.pick(&onward).filter(|_| random.chance(85)) else {
            break;
        };
        delegations.push(step.record);
        key = step.delegatee;
        depth = depth.saturating_sub(1).min(step.depth);
    }
    (key, delegations)
}

/// The access records a chain may begin with: those that need the licence, if
/// there are any.
fn possible_records(
    table: &Table,
    names: &Names,
    request: &Request,
    licence: Licence,
) -> Vec<usize> {
    let possible = |number: &usize| {
        let record = &table.access_records[*number];
        (record.owner == request.owner || licence == Licence::Owner)
            && (record.object == request.object || licence == Licence::Object)
            && (record.right == request.right || licence == Licence::Right)
            && names.path(record.owner, &record.path).is_some()
    };
    let strange = |number: &usize| {
        let record = &table.access_records[*number];
        (record.owner, record.object, record.right)
            != (request.owner, request.object, request.right)
    };
    let numbers = 0..table.access_records.len();
    let possible: Vec<usize> = numbers.filter(possible).collect();
    let strange: Vec<usize> = possible.iter().copied().filter(strange).collect();
    if strange.is_empty() {
        possible
    } else {
        strange
    }
}

/// The delegations a chain may go on with.
fn possible_steps(table: &Table, names: &Names, request: &Request, licence: Licence) -> Vec<Step> {
    let owner = names.self_key(request.owner);
    let mut steps = Vec::new();
    for (number, delegation) in table.delegations.iter().enumerate() {
        let writer = delegation.writer;
        let to_owner = names.path(writer, &delegation.owner_path) == owner;
        let possible = (to_owner || licence == Licence::OwnerPath)
            && (delegation.object == request.object || licence == Licence::Object)
            && (delegation.right == request.right || licence == Licence::Right);
        let delegatee = names.path(writer, &delegation.delegatee_path);
        if let (true, Some(writer), Some(delegatee)) = (possible, names.self_key(writer), delegatee)
        {
            steps.push(Step {
                record: number,
                writer,
                delegatee,
                depth: delegation.depth,
            });
        }
    }
    steps
}
