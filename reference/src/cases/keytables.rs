//! Key tables and key requests, good and damaged.

use super::damage::{damage_bytes, damaged, stretch};
use super::marks::Marks;
use super::random::Random;
use super::requests::good_request;
use super::scenes::{self, good_scene, Scene};
use crate::keytable::{write_key_table, KeyAccessRecord, KeyDelegation, KeyRequest, KeyTable};
use crate::limits;
use crate::names::Names;
use crate::table::Key;
use crate::translate::replace_names;

/// A key table with a request worth asking.
struct KeyScene {
    table: KeyTable,
    request: KeyRequest,
}

/// A key table, damaged more often than not.
pub fn any_key_table(random: &mut Random) -> Vec<u8> {
    let table = key_scene(random).table;
    if random.chance(35) {
        write_key_table(&table)
    } else {
        damaged_key_table(random, &table)
    }
}

/// A key request, damaged more often than not.
pub fn any_key_request(random: &mut Random) -> Vec<u8> {
    let request = random_request(random);
    if random.chance(35) {
        write_key_request(&request)
    } else {
        damaged_key_request(random, &request)
    }
}

/// A key table and a key request.
pub fn decide_parts(random: &mut Random) -> Vec<Vec<u8>> {
    let scene = key_scene(random);
    let table = if random.chance(90) {
        write_key_table(&scene.table)
    } else {
        damaged_key_table(random, &scene.table)
    };
    let request = match random.below(20) {
        0 | 1 => damaged_key_request(random, &scene.request),
        2 => write_key_request(&random_request(random)),
        _ => write_key_request(&scene.request),
    };
    vec![table, request]
}

/// The bytes of a key request.
pub fn write_key_request(request: &KeyRequest) -> Vec<u8> {
    Marks::of_key_request(request).bytes()
}

fn key_scene(random: &mut Random) -> KeyScene {
    match random.below(100) {
        0..=39 => translated(random),
        40..=69 => key_web(random, 8, 20),
        70..=93 => key_ladder(random),
        94..=97 => key_web(random, 100, 200),
        _ => full_key_table(random),
    }
}

/// The translation of a table, and a request to it in keys.
fn translated(random: &mut Random) -> KeyScene {
    let scene = good_scene(random);
    KeyScene {
        request: translated_request(random, &scene),
        table: replace_names(&scene.table),
    }
}

fn translated_request(random: &mut Random, scene: &Scene) -> KeyRequest {
    let names = Names::of(&scene.table);
    let request = good_request(random, scene);
    let any = Key(random.between(1, limits::GREATEST_KEY));
    KeyRequest {
        subject: names.target(&request.subject).unwrap_or(any),
        owner: names.self_key(request.owner).unwrap_or(any),
        object: request.object,
        right: request.right,
    }
}

/// Records among a few keys, up to so many of each sort.
fn key_web(random: &mut Random, access_records: usize, delegations: usize) -> KeyScene {
    let count = random.count(2, 8);
    let access_records = random.count(0, access_records);
    let delegations = random.count(0, delegations);
    random_records(random, count, access_records, delegations)
}

/// As many records as a key table holds.
fn full_key_table(random: &mut Random) -> KeyScene {
    let count = random.one_of([3, 20, 200]);
    let access_records = limits::ACCESS_RECORDS as usize;
    let delegations = limits::DELEGATIONS as usize;
    random_records(random, count, access_records, delegations)
}

fn random_records(
    random: &mut Random,
    keys: usize,
    access_records: usize,
    delegations: usize,
) -> KeyScene {
    let keys = scenes::keys(random, keys);
    let request = request_among(random, &keys);
    let mut table = KeyTable::default();
    for _ in 0..access_records {
        table.access_records.push(KeyAccessRecord {
            owner: mostly(random, request.owner, &keys),
            object: object_near(random, request.object),
            right: right_near(random, request.right),
            subject: one(random, &keys),
            depth: scenes::depth(random),
        });
    }
    for _ in 0..delegations {
        table.delegations.push(KeyDelegation {
            writer: one(random, &keys),
            owner: mostly(random, request.owner, &keys),
            object: object_near(random, request.object),
            right: right_near(random, request.right),
            delegatee: one(random, &keys),
            depth: scenes::depth(random),
        });
    }
    KeyScene { table, request }
}

/// One chain from key to key, in any order, with some steps too shallow.
fn key_ladder(random: &mut Random) -> KeyScene {
    let rungs = random.count(1, 16);
    let keys = scenes::keys(random, rungs + 2);
    let mut request = request_among(random, &keys);
    request.owner = keys[0];
    request.subject = keys[random.count(1, rungs + 1)];
    let mut table = KeyTable::default();
    table.access_records.push(KeyAccessRecord {
        owner: request.owner,
        object: request.object,
        right: request.right,
        subject: keys[1],
        depth: random.one_of([15, 15, 15, rungs.min(15) as u32, 7]),
    });
    for rung in 1..=rungs {
        let needed = (rungs - rung) as u32;
        table.delegations.push(KeyDelegation {
            writer: keys[rung],
            owner: request.owner,
            object: request.object,
            right: request.right,
            delegatee: keys[rung + 1],
            depth: random.one_of([15, needed.min(15), needed.saturating_sub(1).min(15), 15]),
        });
    }
    random.shuffle(&mut table.delegations);
    KeyScene { table, request }
}

fn request_among(random: &mut Random, keys: &[Key]) -> KeyRequest {
    KeyRequest {
        subject: one(random, keys),
        owner: one(random, keys),
        object: scenes::object(random),
        right: scenes::right(random),
    }
}

fn random_request(random: &mut Random) -> KeyRequest {
    let keys = scenes::keys(random, 2);
    request_among(random, &keys)
}

fn one(random: &mut Random, keys: &[Key]) -> Key {
    random.pick(keys).unwrap_or(Key(1))
}

fn mostly(random: &mut Random, key: Key, keys: &[Key]) -> Key {
    if random.chance(85) {
        key
    } else {
        one(random, keys)
    }
}

fn object_near(random: &mut Random, object: u32) -> u32 {
    if random.chance(93) {
        object
    } else {
        scenes::object(random)
    }
}

fn right_near(random: &mut Random, right: u32) -> u32 {
    if random.chance(93) {
        right
    } else {
        scenes::right(random)
    }
}

/// The bytes of a key table that is most likely faulty.
fn damaged_key_table(random: &mut Random, table: &KeyTable) -> Vec<u8> {
    match random.below(40) {
        0 => Vec::new(),
        1 => {
            let length = random.count(1, 40);
            random.bytes(length)
        }
        2 => stretched(random, table),
        3 => overfilled(random, table),
        _ => damaged(random, &Marks::of_key_table(table)),
    }
}

/// Spare bytes up to the limit of a key table, or one byte past it.
fn stretched(random: &mut Random, table: &KeyTable) -> Vec<u8> {
    let mut bytes = write_key_table(table);
    if random.chance(40) {
        damage_bytes(random, &mut bytes);
    }
    let limit = limits::KEY_TABLE_BYTES;
    let length = random.one_of([limit - 1, limit, limit + 1]);
    stretch(random, &mut bytes, length);
    bytes
}

/// A section at its limit or one past it.
fn overfilled(random: &mut Random, table: &KeyTable) -> Vec<u8> {
    let mut table = table.clone();
    let past = random.place(2);
    let records = &mut table.access_records;
    if let Some(record) = random.pick(records).filter(|_| random.chance(50)) {
        records.resize(limits::ACCESS_RECORDS as usize + past, record);
        return write_key_table(&table);
    }
    if let Some(record) = random.pick(&table.delegations) {
        let count = limits::DELEGATIONS as usize + past;
        table.delegations.resize(count, record);
    }
    write_key_table(&table)
}

/// The bytes of a key request that is most likely faulty.
fn damaged_key_request(random: &mut Random, request: &KeyRequest) -> Vec<u8> {
    match random.below(10) {
        0 => Vec::new(),
        1 => {
            let mut bytes = write_key_request(request);
            let length = random.one_of([63, 64, 65, 300]);
            stretch(random, &mut bytes, length);
            bytes
        }
        2 => {
            let length = random.count(1, 18);
            random.bytes(length)
        }
        _ => damaged(random, &Marks::of_key_request(request)),
    }
}
