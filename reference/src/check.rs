//! The checker: whether a derivation holds, and its depth.

use crate::access::depth_after;
use crate::answer::{Answer, NOT_A_DERIVATION, REQUEST};
use crate::derivation::{read_derivation, Derivation};
use crate::names::Names;
use crate::request::{read_request, Request};
use crate::table::{read_table, Key, Table};

/// Checks a derivation.
///
/// Order: the table faults, "Request, then 12".
pub fn check(table: &[u8], request: &[u8], derivation: &[u8]) -> Answer {
    let table = match read_table(table) {
        Ok(table) => table,
        Err(fault) => return fault.into(),
    };
    let Some(request) = read_request(&table, request) else {
        return Answer::refused(REQUEST);
    };
    let depth = read_derivation(derivation)
        .and_then(|derivation| depth_of_derivation(&table, &request, &derivation));
    match depth {
        Some(depth) => Answer::accepted(depth),
        None => Answer::refused(NOT_A_DERIVATION),
    }
}

/// The depth of a derivation that holds, or nothing.
///
/// "A derivation holds if each listed binding's target gets its meaning from
/// bindings listed before it, the subject and every path used by the chain get
/// theirs from the listed ones, the chain follows the rules, and its last name
/// means the subject's key. Its depth is the greatest that this chain gives.
/// Bindings listed and not used do no harm."
pub fn depth_of_derivation(
    table: &Table,
    request: &Request,
    derivation: &Derivation,
) -> Option<u32> {
    let names = Names::listed(table, &derivation.bindings)?;
    let subject = names.target(&request.subject)?;
    let (mut key, mut depth) = start(table, &names, request, derivation.access_record)?;
    for &delegation in &derivation.delegations {
        (key, depth) = step(table, &names, request, delegation, (key, depth))?;
    }
    if key != subject {
        return None;
    }
    Some(depth)
}

/// "Root: owner B's record with path p and depth d gives the name p in B
/// access at d."
fn start(table: &Table, names: &Names, request: &Request, number: usize) -> Option<(Key, u32)> {
    let record = table.access_records.get(number)?;
    let asked = record.owner == request.owner
        && record.object == request.object
        && record.right == request.right;
    if !asked {
        return None;
    }
    let key = names.path(record.owner, &record.path)?;
    Some((key, record.depth))
}

/// "Delegation: if a name has access at d+1 and means the SELF key of space A,
/// and A wrote a delegation at d for that object and right, whose owner path
/// in A means B's SELF key, then the delegatee path in A has access at d."
fn step(
    table: &Table,
    names: &Names,
    request: &Request,
    number: usize,
    (key, depth): (Key, u32),
) -> Option<(Key, u32)> {
    let delegation = table.delegations.get(number)?;
    let writer = delegation.writer;
    if names.self_key(writer)? != key {
        return None;
    }
    if delegation.object != request.object || delegation.right != request.right {
        return None;
    }
    let owner = names.path(writer, &delegation.owner_path)?;
    if owner != names.self_key(request.owner)? {
        return None;
    }
    let delegatee = names.path(writer, &delegation.delegatee_path)?;
    let depth = depth_after(depth, delegation.depth)?;
    Some((delegatee, depth))
}
