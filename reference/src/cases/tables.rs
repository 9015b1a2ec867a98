//! Tables, good and damaged.

use super::damage::{damage_bytes, damaged, stretch};
use super::marks::Marks;
use super::random::Random;
use super::scenes::{self, good_scene};
use super::{buffers, webs};
use crate::limits;
use crate::table::{AccessRecord, Binding, Delegation, Key, Path, Space, Table, Target};

/// A table, damaged more often than not.
pub fn any_table(random: &mut Random) -> Vec<u8> {
    if random.chance(35) {
        write_table(&good_scene(random).table)
    } else {
        damaged_table(random)
    }
}

/// A table, now and then damaged.
pub fn mostly_good(random: &mut Random) -> Vec<u8> {
    if random.chance(85) {
        write_table(&good_scene(random).table)
    } else {
        damaged_table(random)
    }
}

/// A table and a buffer for its key table.
pub fn translate_parts(random: &mut Random) -> Vec<Vec<u8>> {
    let table = mostly_good(random);
    vec![table, buffers::key_table(random)]
}

/// The bytes of a table.
pub fn write_table(table: &Table) -> Vec<u8> {
    Marks::of_table(table).bytes()
}

/// The bytes of a table that is most likely faulty.
pub fn damaged_table(random: &mut Random) -> Vec<u8> {
    let mut table = good_scene(random).table;
    match random.below(100) {
        0 | 1 => Vec::new(),
        2..=4 => {
            let length = random.count(1, 40);
            random.bytes(length)
        }
        5 => stretched(random, &table),
        6..=8 => {
            overfill(random, &mut table);
            write_table(&table)
        }
        9..=18 => {
            bind_twice(random, &mut table);
            write_or_damage(random, &table)
        }
        19..=26 => {
            key_twice(random, &mut table);
            write_or_damage(random, &table)
        }
        _ => damaged(random, &Marks::of_table(&table)),
    }
}

fn write_or_damage(random: &mut Random, table: &Table) -> Vec<u8> {
    if random.chance(75) {
        write_table(table)
    } else {
        damaged(random, &Marks::of_table(table))
    }
}

/// Spare bytes up to the limit of a table, or one byte past it.
fn stretched(random: &mut Random, table: &Table) -> Vec<u8> {
    let mut bytes = write_table(table);
    if random.chance(40) {
        damage_bytes(random, &mut bytes);
    }
    let length = random.one_of([
        limits::TABLE_BYTES - 1,
        limits::TABLE_BYTES,
        limits::TABLE_BYTES + 1,
    ]);
    stretch(random, &mut bytes, length);
    bytes
}

/// One section at its limit or one past it.
fn overfill(random: &mut Random, table: &mut Table) {
    let past = random.place(2);
    if table.spaces.is_empty() {
        *table = webs::tiny(random).table;
    }
    let space = Space(random.place(table.spaces.len()));
    match random.below(4) {
        0 => table.spaces = scenes::keys(random, limits::SPACES as usize + past),
        1 => table.bindings = many_bindings(space, limits::BINDINGS as usize + past),
        2 => {
            let record = random.pick(&table.access_records);
            let record = record.unwrap_or_else(|| plain_access_record(space));
            table.access_records = vec![record; limits::ACCESS_RECORDS as usize + past];
        }
        _ => {
            let record = random.pick(&table.delegations);
            let record = record.unwrap_or_else(|| plain_delegation(space));
            table.delegations = vec![record; limits::DELEGATIONS as usize + past];
        }
    }
}

fn many_bindings(space: Space, count: usize) -> Vec<Binding> {
    (1..=count)
        .map(|base_name| Binding {
            space,
            base_name: base_name as u32,
            target: Target::Name(space, Path::new()),
        })
        .collect()
}

fn plain_access_record(owner: Space) -> AccessRecord {
    AccessRecord {
        owner,
        object: 7,
        right: 2,
        path: Path::new(),
        depth: limits::GREATEST_DEPTH,
    }
}

fn plain_delegation(writer: Space) -> Delegation {
    Delegation {
        writer,
        owner_path: Path::new(),
        object: 7,
        right: 2,
        delegatee_path: Path::new(),
        depth: limits::GREATEST_DEPTH,
    }
}

/// A second binding of a name in a space.
fn bind_twice(random: &mut Random, table: &mut Table) {
    let Some(one) = random.pick(&table.bindings) else {
        return;
    };
    let at = random.place(table.bindings.len());
    let changed = &mut table.bindings[at];
    changed.space = one.space;
    changed.base_name = one.base_name;
}

/// A second space with a key.
fn key_twice(random: &mut Random, table: &mut Table) {
    let Some(one) = random.pick(&table.spaces) else {
        return;
    };
    let at = random.place(table.spaces.len());
    table.spaces[at] = one;
}

/// A good table that differs from this one in one place.
pub fn neighbour(random: &mut Random, table: &Table) -> Table {
    let mut other = table.clone();
    match random.below(9) {
        0 => change_target(random, &mut other),
        1 => drop_one(random, &mut other.bindings),
        2 => drop_one(random, &mut other.access_records),
        3 => drop_one(random, &mut other.delegations),
        4 => change_self_key(random, &mut other),
        5 => change_access_depth(random, &mut other),
        6 => change_delegation_depth(random, &mut other),
        7 => change_delegation_path(random, &mut other),
        _ => swap_two(random, &mut other.delegations),
    }
    other
}

fn change_target(random: &mut Random, table: &mut Table) {
    let key = Key(random.between(1, limits::GREATEST_KEY));
    let key = random.pick(&table.spaces).unwrap_or(key);
    let at = random.place(table.bindings.len());
    if let Some(binding) = table.bindings.get_mut(at) {
        binding.target = Target::Key(key);
    }
}

fn drop_one<T>(random: &mut Random, records: &mut Vec<T>) {
    let at = random.place(records.len());
    if at < records.len() {
        records.remove(at);
    }
}

fn swap_two<T>(random: &mut Random, records: &mut [T]) {
    let (one, other) = (random.place(records.len()), random.place(records.len()));
    if !records.is_empty() {
        records.swap(one, other);
    }
}

fn change_self_key(random: &mut Random, table: &mut Table) {
    let key = Key(random.between(1, limits::GREATEST_KEY));
    let at = random.place(table.spaces.len());
    if at < table.spaces.len() && !table.spaces.contains(&key) {
        table.spaces[at] = key;
    }
}

fn change_access_depth(random: &mut Random, table: &mut Table) {
    let at = random.place(table.access_records.len());
    if let Some(record) = table.access_records.get_mut(at) {
        record.depth = scenes::depth(random);
    }
}

fn change_delegation_depth(random: &mut Random, table: &mut Table) {
    let at = random.place(table.delegations.len());
    if let Some(record) = table.delegations.get_mut(at) {
        record.depth = scenes::depth(random);
    }
}

fn change_delegation_path(random: &mut Random, table: &mut Table) {
    let at = random.place(table.delegations.len());
    if let Some(record) = table.delegations.get_mut(at) {
        if random.chance(50) {
            record.owner_path = Path::new();
        } else {
            record.delegatee_path.pop();
        }
    }
}
