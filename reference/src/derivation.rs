//! Derivations: bindings and a chain that show why a request is granted.

use std::collections::HashSet;

use crate::answer::Fault;
use crate::limits;
use crate::names::Names;
use crate::number::{write_number, Reader};
use crate::request::Request;
use crate::table::Table;

/// "Derivation: count of binding numbers, these numbers, none twice; count of
/// the chain (1 to 16), one access record number, then delegation numbers."
#[derive(Clone, Debug, PartialEq, Eq)]
pub struct Derivation {
    pub bindings: Vec<usize>,
    pub access_record: usize,
    pub delegations: Vec<usize>,
}

/// Reads a derivation by its form alone, or nothing where it is malformed.
///
/// "At most 512 bytes." A number that no table's section reaches is malformed
/// too.
pub fn read_derivation(bytes: &[u8]) -> Option<Derivation> {
    if bytes.len() > limits::DERIVATION_BYTES {
        return None;
    }
    let derivation = read_whole(bytes).ok()?;
    let distinct: HashSet<&usize> = derivation.bindings.iter().collect();
    if distinct.len() < derivation.bindings.len() {
        return None;
    }
    Some(derivation)
}

fn read_whole(bytes: &[u8]) -> Result<Derivation, Fault> {
    let mut reader = Reader::new(bytes);
    let count = reader.number_in(0, limits::BINDINGS)?;
    let mut bindings = Vec::new();
    for _ in 0..count {
        bindings.push(reader.number_in(0, limits::BINDINGS - 1)? as usize);
    }
    let chain = reader.number_in(1, limits::CHAIN)?;
    let access_record = reader.number_in(0, limits::ACCESS_RECORDS - 1)? as usize;
    let mut delegations = Vec::new();
    for _ in 1..chain {
        delegations.push(reader.number_in(0, limits::DELEGATIONS - 1)? as usize);
    }
    reader.end()?;
    Ok(Derivation {
        bindings,
        access_record,
        delegations,
    })
}

/// The bytes of a derivation.
pub fn write_derivation(derivation: &Derivation) -> Vec<u8> {
    let mut out = Vec::new();
    write_number(&mut out, derivation.bindings.len() as u32);
    for &binding in &derivation.bindings {
        write_number(&mut out, binding as u32);
    }
    write_number(&mut out, derivation.delegations.len() as u32 + 1);
    write_number(&mut out, derivation.access_record as u32);
    for &delegation in &derivation.delegations {
        write_number(&mut out, delegation as u32);
    }
    out
}

/// The bindings that the subject, the paths of a chain and the targets of
/// these bindings use, in the order in which the names were opened: each
/// one's target gets its meaning from those before it.
pub fn used_bindings(
    table: &Table,
    names: &Names,
    request: &Request,
    access_record: usize,
    delegations: &[usize],
) -> Vec<usize> {
    let mut waiting = names.used_by_target(&request.subject);
    if let Some(access) = table.access_records.get(access_record) {
        waiting.extend(names.used_by_path(access.owner, &access.path));
    }
    for &number in delegations {
        if let Some(delegation) = table.delegations.get(number) {
            let writer = delegation.writer;
            waiting.extend(names.used_by_path(writer, &delegation.owner_path));
            waiting.extend(names.used_by_path(writer, &delegation.delegatee_path));
        }
    }
    let mut used = HashSet::new();
    while let Some(number) = waiting.pop() {
        if !used.insert(number) {
            continue;
        }
        if let Some(binding) = table.bindings.get(number) {
            waiting.extend(names.used_by_target(&binding.target));
        }
    }
    let in_order = names.order().iter().copied();
    in_order.filter(|number| used.contains(number)).collect()
}
