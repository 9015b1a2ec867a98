//! A table of full size in which every record is for the request.

use reference::table::{AccessRecord, Binding, Delegation, Key, Space};
use reference::{Request, Table};

use super::records::{access, binding, delegation, key, name, OBJECT, RIGHT};
use super::{asked_by, hardest};

const SPACES: usize = 64;
const ACCESS_RECORDS: usize = 256;
const DELEGATIONS: usize = 512;

/// What each space calls the next one, the owner (space 0), itself, and the
/// one two further on.
const NEXT: u32 = 300;
const OWNER: u32 = 301;
const HERE: u32 = 302;
const FAR: u32 = 303;

fn key_of(space: usize) -> Key {
    Key(4_000_000_000 + (space % SPACES) as u32)
}

fn names_of(space: usize) -> [Binding; 4] {
    [
        binding(space, FAR, name(space, &[NEXT, NEXT])),
        binding(space, NEXT, key(key_of(space + 1))),
        binding(space, OWNER, name(0, &[])),
        binding(space, HERE, name(space, &[])),
    ]
}

/// The names of the first space after the owner; the deep records come late.
fn listed(number: usize) -> AccessRecord {
    let paths: [&[u32]; 3] = [&[NEXT], &[HERE, NEXT], &[HERE, OWNER, NEXT]];
    let depth = number * 16 / ACCESS_RECORDS;
    access(
        0,
        (OBJECT, RIGHT),
        paths[number % paths.len()],
        depth as u32,
    )
}

/// Six of each space to the next one and two to the first one after the owner,
/// the last space first, so that a round over them gives one step.
fn passed_on(number: usize) -> Delegation {
    let owners: [&[u32]; 2] = [&[OWNER], &[HERE, OWNER]];
    let nexts: [&[u32]; 4] = [
        &[NEXT],
        &[HERE, NEXT],
        &[HERE, HERE, NEXT],
        &[OWNER, HERE, NEXT],
    ];
    let turn = number / SPACES;
    let writer = SPACES - 1 - number % SPACES;
    delegation(
        writer,
        owners[turn % 2],
        (OBJECT, RIGHT),
        nexts[turn / 2],
        15,
    )
}

pub fn scene() -> (Table, Request) {
    let table = Table {
        spaces: (0..SPACES).map(key_of).collect(),
        bindings: (0..SPACES).flat_map(names_of).collect(),
        access_records: (0..ACCESS_RECORDS).map(listed).collect(),
        delegations: (0..DELEGATIONS).map(passed_on).collect(),
    };
    let any = Request {
        subject: name(0, &[]),
        owner: Space(0),
        object: OBJECT,
        right: RIGHT,
    };
    let requests = table.spaces.iter().map(|&space| asked_by(space, &any));
    let request = hardest(&table, requests);
    (table, request)
}
