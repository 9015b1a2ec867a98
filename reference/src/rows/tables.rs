//! Tables at their limits.

use super::specimen::T;
use super::{each, not_shortest, numbers, stretched, table, truncations, wrong_forms};
use super::{ENDLESS, FAR_TOO_LARGE, MOST, TOO_LARGE};
use crate::cases::Case;
use crate::limits::TABLE_BYTES;

const KEYS: [u32; 3] = [0, 1, MOST];
const BASE_NAMES: [u32; 4] = [0, 1, 65_535, 65_536];
const OBJECTS: [u32; 3] = [0, 65_535, 65_536];
const RIGHTS: [u32; 4] = [0, 1, 32, 33];
const DEPTHS: [u32; 3] = [0, 15, 16];
/// Space numbers of a table with two spaces.
const SPACES: [u32; 4] = [0, 1, 2, MOST];

/// The rows of tables other than T.
pub fn rows() -> Vec<Case> {
    let mut rows = Vec::new();
    rows.extend(first_numbers());
    rows.extend(fields_of_bindings());
    rows.extend(fields_of_access_records());
    rows.extend(fields_of_delegations());
    rows.extend(counts());
    rows.extend(twice());
    rows.extend(orders());
    rows.extend(wide());
    rows.extend(lengths());
    rows.into_iter().map(table).collect()
}

/// Versions, and first numbers that are none.
fn first_numbers() -> Vec<Vec<u8>> {
    let mut rows = each(&[0, 1, 2, MOST], |n| vec![n, 0, 0, 0, 0]);
    rows.push(vec![0x80, 0x00]);
    rows.push(vec![0x81, 0x00]);
    rows.push(TOO_LARGE.to_vec());
    rows.push(FAR_TOO_LARGE.to_vec());
    for byte in [0x80, 0xFF] {
        for length in 1..=6 {
            rows.push(vec![byte; length]);
        }
    }
    rows.push([&ENDLESS[..], &[0x00]].concat());
    rows
}

/// A table with two spaces and this binding.
fn binding(row: &[u32]) -> Vec<u32> {
    [&[1, 2, 7, 8, 1], row, &[0, 0]].concat()
}

fn fields_of_bindings() -> Vec<Vec<u8>> {
    let mut rows = each(&KEYS, |n| vec![1, 1, n, 0, 0, 0]);
    rows.extend(each(&SPACES, |n| binding(&[n, 1, 0, 9])));
    rows.extend(each(&BASE_NAMES, |n| binding(&[0, n, 0, 9])));
    rows.extend(each(&[0, 1, 2, MOST], |n| binding(&[0, 1, n, 1, 0])));
    rows.extend(each(&KEYS, |n| binding(&[0, 1, 0, n])));
    rows.extend(each(&SPACES, |n| binding(&[0, 1, 1, n, 0])));
    rows.extend(paths(|path| binding(&[&[0, 1, 1, 0], path].concat())));
    // Records of a table without spaces have no space to name.
    rows.push(numbers(&[1, 0, 1, 0, 1, 0, 9, 0, 0]));
    rows.push(numbers(&[1, 0, 0, 1, 0, 7, 2, 0, 0, 0]));
    rows.push(numbers(&[1, 0, 0, 0, 1, 0, 0, 7, 2, 0, 0]));
    rows
}

/// Paths of 0 to 5 names, and each name at its edges.
fn paths(row: impl Fn(&[u32]) -> Vec<u32>) -> Vec<Vec<u8>> {
    let mut rows = Vec::new();
    for length in 0..=5 {
        let names = vec![3; length as usize];
        rows.push(numbers(&row(&[&[length], &names[..]].concat())));
    }
    rows.extend(each(&[6, MOST], |n| row(&[n])));
    for place in 1..=4 {
        rows.extend(each(&BASE_NAMES, |n| {
            let mut path = [4, 3, 3, 3, 3];
            path[place] = n;
            row(&path)
        }));
    }
    rows
}

/// A table with two spaces and this access record.
fn access(row: &[u32]) -> Vec<u32> {
    [&[1, 2, 7, 8, 0, 1], row, &[0]].concat()
}

fn fields_of_access_records() -> Vec<Vec<u8>> {
    let mut rows = each(&SPACES, |n| access(&[n, 7, 2, 0, 0]));
    rows.extend(each(&OBJECTS, |n| access(&[0, n, 2, 0, 0])));
    rows.extend(each(&RIGHTS, |n| access(&[0, 7, n, 0, 0])));
    rows.extend(paths(|path| access(&[&[0, 7, 2], path, &[0]].concat())));
    rows.extend(each(&DEPTHS, |n| access(&[0, 7, 2, 0, n])));
    rows
}

/// A table with two spaces and this delegation.
fn delegation(row: &[u32]) -> Vec<u32> {
    [&[1, 2, 7, 8, 0, 0, 1], row].concat()
}

fn fields_of_delegations() -> Vec<Vec<u8>> {
    let mut rows = each(&SPACES, |n| delegation(&[n, 0, 7, 2, 0, 0]));
    rows.extend(paths(|path| {
        delegation(&[&[0], path, &[7, 2, 0, 0]].concat())
    }));
    rows.extend(each(&OBJECTS, |n| delegation(&[0, 0, n, 2, 0, 0])));
    rows.extend(each(&RIGHTS, |n| delegation(&[0, 0, 7, n, 0, 0])));
    rows.extend(paths(|path| {
        delegation(&[&[0, 0, 7, 2], path, &[0]].concat())
    }));
    rows.extend(each(&DEPTHS, |n| delegation(&[0, 0, 7, 2, 0, n])));
    rows
}

fn with_spaces(count: u32) -> Vec<u32> {
    let keys: Vec<u32> = (1..=count).collect();
    [&[1, count], &keys[..], &[0, 0, 0]].concat()
}

fn with_bindings(count: u32) -> Vec<u32> {
    let records: Vec<u32> = (1..=count).flat_map(|name| [0, name, 0, 5]).collect();
    [&[1, 1, 9, count], &records[..], &[0, 0]].concat()
}

fn with_access_records(count: u32) -> Vec<u32> {
    let records: Vec<u32> = (0..count).flat_map(|_| [0, 7, 2, 0, 15]).collect();
    [&[1, 1, 9, 0, count], &records[..], &[0]].concat()
}

fn with_delegations(count: u32) -> Vec<u32> {
    let records: Vec<u32> = (0..count).flat_map(|_| [0, 0, 7, 2, 0, 15]).collect();
    [&[1, 1, 9, 0, 0, count], &records[..]].concat()
}

/// Each section at its limit and one past it, with its records and without.
fn counts() -> Vec<Vec<u8>> {
    let mut rows = each(&[63, 64, 65], with_spaces);
    rows.extend(each(&[255, 256, 257], with_bindings));
    rows.extend(each(&[255, 256, 257], with_access_records));
    rows.extend(each(&[511, 512, 513], with_delegations));
    rows.extend(each(&[64, 65, MOST], |n| vec![1, n]));
    rows.extend(each(&[256, 257, MOST], |n| vec![1, 1, 9, n]));
    rows.extend(each(&[256, 257, MOST], |n| vec![1, 1, 9, 0, n]));
    rows.extend(each(&[512, 513, MOST], |n| vec![1, 1, 9, 0, 0, n]));
    rows
}

/// A second space with a key, a second binding of a name in a space, and what
/// looks like one.
fn twice() -> Vec<Vec<u8>> {
    let mut rows: Vec<Vec<u8>> = [
        // Spaces: the second, the third, a wide key.
        &[1, 2, 9, 9, 0, 0, 0][..],
        &[1, 3, 9, 8, 9, 0, 0, 0],
        &[1, 3, 300, 9, 300, 0, 0, 0],
        &[1, 2, MOST, MOST, 0, 0, 0],
        // Bindings: one name in one space, in two spaces, two names in one.
        &[1, 2, 9, 8, 2, 0, 4, 0, 5, 0, 4, 0, 5, 0, 0],
        &[1, 2, 9, 8, 2, 0, 4, 0, 5, 1, 4, 0, 5, 0, 0],
        &[1, 2, 9, 8, 2, 0, 4, 0, 5, 0, 3, 0, 5, 0, 0],
        &[
            1, 2, 9, 8, 3, 1, 65_535, 0, 5, 0, 65_535, 0, 5, 1, 65_535, 0, 5, 0, 0,
        ],
        &[1, 2, 9, 8, 2, 0, 65_535, 0, 5, 1, 1, 0, 5, 0, 0],
        // Access records and delegations may repeat.
        &[1, 1, 9, 0, 2, 0, 7, 2, 0, 1, 0, 7, 2, 0, 1, 0],
        &[1, 1, 9, 0, 0, 2, 0, 0, 7, 2, 0, 1, 0, 0, 7, 2, 0, 1],
    ]
    .into_iter()
    .map(numbers)
    .collect();
    // The last of a full section is that of the first.
    let mut spaces = with_spaces(64);
    spaces[2 + 63] = 1;
    rows.push(numbers(&spaces));
    let mut bindings = with_bindings(256);
    bindings[4 + 4 * 255 + 1] = 1;
    rows.push(numbers(&bindings));
    rows
}

/// Faults of one number and faults that follow one another: the first counts.
fn orders() -> Vec<Vec<u8>> {
    let two_spaces: &[u8] = &[1, 2, 9];
    let second_binding: &[u8] = &[1, 2, 9, 8, 2, 0, 4, 0, 5, 0];
    vec![
        // Cut and Number before Version.
        vec![0x82],
        vec![0x82, 0x00],
        // Number before Range: 65 spaces, the key 0, the base name 0.
        [&[1], &not_shortest(65)[..]].concat(),
        [&[1, 1], &not_shortest(0)[..], &[0, 0, 0]].concat(),
        [&[1, 1, 9, 1, 0], &not_shortest(0)[..], &[0, 5, 0, 0]].concat(),
        // Cut, Number and Range before Twice.
        [two_spaces, &[0x89]].concat(),
        [two_spaces, &not_shortest(9)].concat(),
        numbers(&[1, 2, 0, 0, 0, 0, 0]),
        [second_binding, &[0x84]].concat(),
        [second_binding, &not_shortest(4)].concat(),
        // Twice before the faults of the target.
        [second_binding, &[4]].concat(),
        [second_binding, &[4, 2]].concat(),
        [second_binding, &[4, 0, 0]].concat(),
        [second_binding, &[4, 0x80, 0x00]].concat(),
        // The space before the base name, the base name before the target.
        numbers(&[1, 1, 9, 1, 1, 0, 2]),
        numbers(&[1, 1, 9, 1, 0, 0, 2]),
        // Version before all that follows it.
        [&[0x00], &[0xFF; 9][..]].concat(),
        // Extra after all the rest.
        numbers(&[1, 1, 0, 0, 0, 0, 0, 0]),
    ]
}

/// A table whose numbers have up to five bytes, cut everywhere and with each
/// number in each wrong form.
fn wide() -> Vec<Vec<u8>> {
    let values = [
        &[1, 2, MOST, 1 << 28][..],
        &[2, 1, 65_535, 1, 0, 2, 128, 16_384, 0, 300, 0, 1 << 21],
        &[1, 0, 65_535, 32, 2, 127, 16_383, 15],
        &[1, 1, 1, 65_535, 65_535, 1, 4, 1, 128, 16_384, 65_535, 14],
    ]
    .concat();
    let mut rows = vec![numbers(&values)];
    rows.extend(truncations(&numbers(&values)));
    rows.extend(wrong_forms(&values));
    rows
}

/// The largest good table, and tables of 32,768 bytes and of one more.
fn lengths() -> Vec<Vec<u8>> {
    let other_version = [&[9], &T[1..]].concat();
    vec![
        numbers(&largest()),
        stretched(&T, TABLE_BYTES),
        stretched(&T, TABLE_BYTES + 1),
        stretched(&other_version, TABLE_BYTES + 1),
    ]
}

/// Every section full, every number as wide as it can be.
fn largest() -> Vec<u32> {
    let path = [4, 65_535, 65_535, 65_535, 65_535];
    let mut values = vec![1, 64];
    values.extend((0..64).map(|n| MOST - n));
    values.push(256);
    for n in 0..256 {
        values.extend([63, 65_535 - n, 1, 63]);
        values.extend(path);
    }
    values.push(256);
    for _ in 0..256 {
        values.extend([63, 65_535, 32]);
        values.extend(path);
        values.push(15);
    }
    values.push(512);
    for _ in 0..512 {
        values.push(63);
        values.extend(path);
        values.extend([65_535, 32]);
        values.extend(path);
        values.push(15);
    }
    values
}
