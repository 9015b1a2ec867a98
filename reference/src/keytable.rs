//! Key tables: read, written, and the decision over them.

use std::collections::HashSet;

use crate::answer::{Answer, Fault, DENIED, LONG, REQUEST};
use crate::limits;
use crate::number::{write_number, Reader};
use crate::table::{read_depth, read_key, read_object, read_right, Key};

/// An access record: "owner key, object, right, subject key, depth".
#[derive(Clone, Debug, PartialEq, Eq)]
pub struct KeyAccessRecord {
    pub owner: Key,
    pub object: u32,
    pub right: u32,
    pub subject: Key,
    pub depth: u32,
}

/// A delegation: "writer key, owner key, object, right, delegatee key, depth".
#[derive(Clone, Debug, PartialEq, Eq)]
pub struct KeyDelegation {
    pub writer: Key,
    pub owner: Key,
    pub object: u32,
    pub right: u32,
    pub delegatee: Key,
    pub depth: u32,
}

/// A key table.
#[derive(Clone, Debug, Default, PartialEq, Eq)]
pub struct KeyTable {
    pub access_records: Vec<KeyAccessRecord>,
    pub delegations: Vec<KeyDelegation>,
}

/// "Key request: subject key, owner key, object, right."
#[derive(Clone, Debug, PartialEq, Eq)]
pub struct KeyRequest {
    pub subject: Key,
    pub owner: Key,
    pub object: u32,
    pub right: u32,
}

/// Reads a key table.
///
/// "Key table: 0; count of access records (to 256) ...; count of delegations
/// (to 512) ... At most 16,384 bytes."
pub fn read_key_table(bytes: &[u8]) -> Result<KeyTable, Fault> {
    if bytes.len() > limits::KEY_TABLE_BYTES {
        return Err(Fault::at(LONG, 0));
    }
    let mut reader = Reader::new(bytes);
    reader.version(limits::KEY_TABLE_VERSION)?;
    let access_records = read_access_records(&mut reader)?;
    let delegations = read_delegations(&mut reader)?;
    reader.end()?;
    Ok(KeyTable {
        access_records,
        delegations,
    })
}

fn read_access_records(reader: &mut Reader) -> Result<Vec<KeyAccessRecord>, Fault> {
    let count = reader.number_in(0, limits::ACCESS_RECORDS)?;
    let mut records = Vec::new();
    for _ in 0..count {
        records.push(KeyAccessRecord {
            owner: read_key(reader)?,
            object: read_object(reader)?,
            right: read_right(reader)?,
            subject: read_key(reader)?,
            depth: read_depth(reader)?,
        });
    }
    Ok(records)
}

fn read_delegations(reader: &mut Reader) -> Result<Vec<KeyDelegation>, Fault> {
    let count = reader.number_in(0, limits::DELEGATIONS)?;
    let mut delegations = Vec::new();
    for _ in 0..count {
        delegations.push(KeyDelegation {
            writer: read_key(reader)?,
            owner: read_key(reader)?,
            object: read_object(reader)?,
            right: read_right(reader)?,
            delegatee: read_key(reader)?,
            depth: read_depth(reader)?,
        });
    }
    Ok(delegations)
}

/// Reads a key request, or nothing where the answer is Request.
///
/// "At most 64 bytes."
pub fn read_key_request(bytes: &[u8]) -> Option<KeyRequest> {
    if bytes.len() > limits::REQUEST_BYTES {
        return None;
    }
    read_whole_request(bytes).ok()
}

fn read_whole_request(bytes: &[u8]) -> Result<KeyRequest, Fault> {
    let mut reader = Reader::new(bytes);
    let request = KeyRequest {
        subject: read_key(&mut reader)?,
        owner: read_key(&mut reader)?,
        object: read_object(&mut reader)?,
        right: read_right(&mut reader)?,
    };
    reader.end()?;
    Ok(request)
}

/// The bytes of a key table.
pub fn write_key_table(table: &KeyTable) -> Vec<u8> {
    let mut numbers = vec![limits::KEY_TABLE_VERSION];
    numbers.push(table.access_records.len() as u32);
    for record in &table.access_records {
        numbers.extend([record.owner.0, record.object, record.right]);
        numbers.extend([record.subject.0, record.depth]);
    }
    numbers.push(table.delegations.len() as u32);
    for delegation in &table.delegations {
        numbers.extend([delegation.writer.0, delegation.owner.0]);
        numbers.extend([delegation.object, delegation.right]);
        numbers.extend([delegation.delegatee.0, delegation.depth]);
    }
    let mut out = Vec::new();
    for number in numbers {
        write_number(&mut out, number);
    }
    out
}

/// Decides a key request over a key table.
///
/// "The key decision answers a grant with its depth alone; its refusals are 1
/// to 4, 6 to 8 and 11, in the same order."
pub fn decide_by_keys(key_table: &[u8], key_request: &[u8]) -> Answer {
    let table = match read_key_table(key_table) {
        Ok(table) => table,
        Err(fault) => return fault.into(),
    };
    let Some(request) = read_key_request(key_request) else {
        return Answer::refused(REQUEST);
    };
    match greatest_depth(&table, &request) {
        Some(depth) => Answer::accepted(depth),
        None => Answer::refused(DENIED),
    }
}

/// The greatest depth at which the subject has access.
pub fn greatest_depth(table: &KeyTable, request: &KeyRequest) -> Option<u32> {
    let access = all_access(table, request);
    let mut depths = (0..=limits::GREATEST_DEPTH).rev();
    depths.find(|&depth| access.contains(&(request.subject, depth)))
}

/// Every key and depth for which there is access to what is asked for.
///
/// "Key rules are the same with every name replaced by its key and no name
/// rules." So: use them until nothing new comes.
fn all_access(table: &KeyTable, request: &KeyRequest) -> HashSet<(Key, u32)> {
    let mut access = HashSet::new();
    for record in &table.access_records {
        // "Root: owner B's record with path p and depth d gives the name p in
        // B access at d."
        let asked = record.owner == request.owner
            && record.object == request.object
            && record.right == request.right;
        if asked {
            add_with_lowering(&mut access, record.subject, record.depth);
        }
    }
    loop {
        let before = access.len();
        for delegation in &table.delegations {
            let asked = delegation.owner == request.owner
                && delegation.object == request.object
                && delegation.right == request.right;
            if asked {
                add_delegated(&mut access, delegation);
            }
        }
        if access.len() == before {
            return access;
        }
    }
}

/// "Lowering: access at d+1 gives access at d".
fn add_with_lowering(access: &mut HashSet<(Key, u32)>, key: Key, depth: u32) {
    for lower in 0..=depth {
        access.insert((key, lower));
    }
}

/// "Delegation: if a name has access at d+1 ... and A wrote a delegation at d
/// ... then the delegatee path in A has access at d." "a delegation at d+1
/// gives one at d."
fn add_delegated(access: &mut HashSet<(Key, u32)>, delegation: &KeyDelegation) {
    for d in 0..=delegation.depth {
        if access.contains(&(delegation.writer, d + 1)) {
            add_with_lowering(access, delegation.delegatee, d);
        }
    }
}
