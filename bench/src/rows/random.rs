//! A table of full size with random records, always the same ones.

use reference::cases::random::Random;
use reference::table::{AccessRecord, Binding, Delegation, Key, Path, Space, Target};
use reference::{Request, Table};

use super::records::{binding, key};
use super::{asked_by, hardest};

const SEED: u64 = 9;
const SPACES: usize = 64;
const ACCESS_RECORDS: usize = 256;
const DELEGATIONS: usize = 512;
/// Each space binds all of these.
const BASE_NAMES: [u32; 4] = [300, 4_000, 9_000, 16_000];
const OBJECTS: [u32; 4] = [5, 700, 8_000, 60_000];

fn any_space(random: &mut Random) -> Space {
    Space(random.place(SPACES))
}

/// One to `most` base names.
fn any_path(random: &mut Random, most: usize) -> Path {
    let length = random.count(1, most);
    (0..length).map(|_| random.one_of(BASE_NAMES)).collect()
}

/// The key of a space, a key of no space, or a name.
fn any_target(random: &mut Random, spaces: &[Key]) -> Target {
    let space = any_space(random);
    match random.below(8) {
        0..=3 => key(spaces[space.0]),
        4 => key(any_key(random)),
        _ => Target::Name(space, any_path(random, 3)),
    }
}

fn any_key(random: &mut Random) -> Key {
    Key(random.between(1, u32::MAX))
}

fn bindings(random: &mut Random, spaces: &[Key]) -> Vec<Binding> {
    let mut bindings = Vec::new();
    for space in 0..SPACES {
        for base_name in BASE_NAMES {
            bindings.push(binding(space, base_name, any_target(random, spaces)));
        }
    }
    random.shuffle(&mut bindings);
    bindings
}

fn access_record(random: &mut Random) -> AccessRecord {
    AccessRecord {
        owner: any_space(random),
        object: random.one_of(OBJECTS),
        right: random.between(1, 3),
        path: any_path(random, 3),
        depth: random.between(0, 15),
    }
}

fn delegation(random: &mut Random) -> Delegation {
    Delegation {
        writer: any_space(random),
        owner_path: any_path(random, 2),
        object: random.one_of(OBJECTS),
        right: random.between(1, 3),
        delegatee_path: any_path(random, 3),
        depth: random.between(0, 15),
    }
}

/// Of all that the access records are for, the request of a space with the
/// longest derivation.
pub fn scene() -> (Table, Request) {
    let mut random = Random::of(SEED, 0);
    let spaces: Vec<Key> = (0..SPACES).map(|_| any_key(&mut random)).collect();
    let table = Table {
        bindings: bindings(&mut random, &spaces),
        access_records: (0..ACCESS_RECORDS)
            .map(|_| access_record(&mut random))
            .collect(),
        delegations: (0..DELEGATIONS).map(|_| delegation(&mut random)).collect(),
        spaces,
    };
    let wishes = table.access_records.iter().map(|record| Request {
        subject: Target::Name(record.owner, record.path.clone()),
        owner: record.owner,
        object: record.object,
        right: record.right,
    });
    let requests = wishes.flat_map(|wish| {
        table
            .spaces
            .iter()
            .map(move |&space| asked_by(space, &wish))
    });
    let request = hardest(&table, requests);
    (table, request)
}
