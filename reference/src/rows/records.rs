//! Records in few words. They are for object 7 and right 2, as the specimen's,
//! unless a row changes that.

use crate::derivation::{write_derivation, Derivation};
use crate::request::Request;
use crate::table::{AccessRecord, Binding, Delegation, Key, Space, Target};

pub const OBJECT: u32 = 7;
pub const RIGHT: u32 = 2;

/// Spaces with these SELF keys.
pub fn spaces(keys: &[u32]) -> Vec<Key> {
    keys.iter().copied().map(Key).collect()
}

/// A key as a target.
pub fn key(number: u32) -> Target {
    Target::Key(Key(number))
}

/// A name as a target.
pub fn name(space: usize, path: &[u32]) -> Target {
    Target::Name(Space(space), path.to_vec())
}

pub fn binding(space: usize, base_name: u32, target: Target) -> Binding {
    Binding {
        space: Space(space),
        base_name,
        target,
    }
}

pub fn access(owner: usize, path: &[u32], depth: u32) -> AccessRecord {
    AccessRecord {
        owner: Space(owner),
        object: OBJECT,
        right: RIGHT,
        path: path.to_vec(),
        depth,
    }
}

pub fn delegation(
    writer: usize,
    owner_path: &[u32],
    delegatee_path: &[u32],
    depth: u32,
) -> Delegation {
    Delegation {
        writer: Space(writer),
        owner_path: owner_path.to_vec(),
        object: OBJECT,
        right: RIGHT,
        delegatee_path: delegatee_path.to_vec(),
        depth,
    }
}

/// A request for object 7 of space 0 and right 2.
pub fn request_of(subject: Target) -> Request {
    Request {
        subject,
        owner: Space(0),
        object: OBJECT,
        right: RIGHT,
    }
}

/// The bytes of a derivation: its bindings, then its chain, an access record
/// and delegations.
pub fn derivation_of(bindings: &[usize], chain: &[usize]) -> Vec<u8> {
    write_derivation(&Derivation {
        bindings: bindings.to_vec(),
        access_record: chain[0],
        delegations: chain[1..].to_vec(),
    })
}
