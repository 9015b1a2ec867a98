//! Records in few words.

use reference::table::{AccessRecord, Binding, Delegation, Key, Space, Target};

/// What records are for, where all of a table are for the same.
pub const OBJECT: u32 = 700;
pub const RIGHT: u32 = 2;

/// A key as a target.
pub fn key(key: Key) -> Target {
    Target::Key(key)
}

/// A name as a target.
pub fn name(space: usize, path: &[u32]) -> Target {
    Target::Name(Space(space), path.to_vec())
}

pub fn binding(space: usize, base_name: u32, target: Target) -> Binding {
    Binding {
        space: Space(space),
        base_name,
        target,
    }
}

pub fn access(owner: usize, (object, right): (u32, u32), path: &[u32], depth: u32) -> AccessRecord {
    AccessRecord {
        owner: Space(owner),
        object,
        right,
        path: path.to_vec(),
        depth,
    }
}

pub fn delegation(
    writer: usize,
    owner_path: &[u32],
    (object, right): (u32, u32),
    delegatee_path: &[u32],
    depth: u32,
) -> Delegation {
    Delegation {
        writer: Space(writer),
        owner_path: owner_path.to_vec(),
        object,
        right,
        delegatee_path: delegatee_path.to_vec(),
        depth,
    }
}
