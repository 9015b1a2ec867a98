//! Requests against T and other tables, and key requests.

use super::specimen::{EMPTY, T};
use super::{changes, key_request, numbers, request, stretched, truncations, wrong_forms, MOST};
use crate::cases::Case;
use crate::limits::{REQUEST_BYTES, TABLE_BYTES};

/// The rows of requests and key requests.
pub fn rows() -> Vec<Case> {
    let to_t = of_the_specimen().into_iter().chain(fields());
    let to_t = to_t.chain(damaged(&BY_KEY)).chain(damaged(&BY_NAME));
    let mut rows: Vec<Case> = to_t.map(|bytes| request(&T, bytes)).collect();
    rows.extend(to_other_tables());
    let by_keys = key_fields().into_iter().chain(damaged(&OF_KEYS));
    rows.extend(by_keys.map(key_request));
    rows
}

/// Key 20 for right 2 on object 7 of space 0: row P2.
const BY_KEY: [u32; 5] = [0, 20, 0, 7, 2];
/// A name of four parts in space 2, each number wide.
const BY_NAME: [u32; 10] = [1, 2, 4, 1, 128, 16_384, 65_535, 1, 65_535, 32];
/// A key request with wide numbers.
const OF_KEYS: [u32; 4] = [MOST, 1 << 28, 65_535, 32];

/// The requests of the specimen's rows P2, P3, P5 to P8.
fn of_the_specimen() -> Vec<Vec<u8>> {
    let rows: [&[u32]; 6] = [
        &BY_KEY,
        &[0, 40, 0, 7, 2],
        &[0, 40, 0, 7, 3],
        &[1, 0, 1, 3, 0, 7, 3],
        &[1, 0, 1, 5, 0, 7, 3],
        &[0, 10, 0, 7, 2],
    ];
    rows.map(numbers).to_vec()
}

/// Each field at its edges.
fn fields() -> Vec<Vec<u8>> {
    let mut rows: Vec<Vec<u32>> = Vec::new();
    for key in [0, 1, MOST] {
        rows.push(vec![0, key, 0, 7, 2]);
    }
    for form in [0, 1, 2, MOST] {
        rows.push(vec![form, 1, 0, 7, 2]);
        rows.push(vec![form, 1, 0, 2, 7, 2]);
    }
    for space in [0, 2, 3, 10, MOST] {
        rows.push(vec![1, space, 0, 0, 7, 2]);
        rows.push(vec![0, 20, space, 7, 2]);
    }
    for length in 0..=5 {
        let names = vec![1; length as usize];
        rows.push([&[1, 0, length], &names[..], &[0, 7, 2]].concat());
    }
    for name in [0, 1, 65_535, 65_536] {
        rows.push(vec![1, 0, 1, name, 0, 7, 2]);
        rows.push(vec![1, 0, 4, 1, 1, 1, name, 0, 7, 2]);
    }
    for object in [0, 65_535, 65_536, MOST] {
        rows.push(vec![0, 20, 0, object, 2]);
    }
    for right in [0, 1, 32, 33, MOST] {
        rows.push(vec![0, 20, 0, 7, right]);
    }
    rows.iter().map(|values| numbers(values)).collect()
}

/// What can befall the bytes of a good one: cut, changed, spare bytes, wrong
/// forms, too long.
fn damaged(values: &[u32]) -> Vec<Vec<u8>> {
    let good = numbers(values);
    let mut rows = vec![good.clone()];
    for byte in [0x00, 0x80, 0xFF] {
        rows.push([&good[..], &[byte]].concat());
    }
    rows.extend(truncations(&good));
    rows.extend(changes(&good));
    rows.extend(wrong_forms(values));
    for length in [REQUEST_BYTES - 1, REQUEST_BYTES, REQUEST_BYTES + 1, 1000] {
        rows.push(stretched(&good, length));
    }
    rows
}

/// The table's faults come first, and its count of spaces counts.
fn to_other_tables() -> Vec<Case> {
    let good = numbers(&BY_KEY);
    let one_space = numbers(&[1, 1, 9, 0, 0, 0]);
    let mut rows = Vec::new();
    for bytes in [good.clone(), Vec::new(), vec![0xFF; 65]] {
        rows.push(request(&EMPTY, bytes.clone()));
        rows.push(request(&[], bytes.clone()));
        rows.push(request(&T[..58], bytes.clone()));
        rows.push(request(&[&T[..], &[0]].concat(), bytes.clone()));
        rows.push(request(&[2, 0, 0, 0, 0], bytes));
    }
    for space in [0, 1] {
        rows.push(request(&one_space, numbers(&[0, 20, space, 7, 2])));
        rows.push(request(&one_space, numbers(&[1, space, 0, 0, 7, 2])));
    }
    let spaces: Vec<u32> = (1..=64).collect();
    let most_spaces = numbers(&[&[1, 64], &spaces[..], &[0, 0, 0]].concat());
    for space in [63, 64] {
        rows.push(request(&most_spaces, numbers(&[0, 20, space, 7, 2])));
        rows.push(request(&most_spaces, numbers(&[1, space, 0, 0, 7, 2])));
    }
    rows.push(request(&stretched(&T, TABLE_BYTES + 1), good));
    rows
}

/// Each field of a key request at its edges.
fn key_fields() -> Vec<Vec<u8>> {
    let mut rows: Vec<Vec<u32>> = Vec::new();
    for key in [0, 1, MOST] {
        rows.push(vec![key, 10, 7, 2]);
        rows.push(vec![20, key, 7, 2]);
    }
    for object in [0, 65_535, 65_536, MOST] {
        rows.push(vec![20, 10, object, 2]);
    }
    for right in [0, 1, 32, 33, MOST] {
        rows.push(vec![20, 10, 7, right]);
    }
    rows.iter().map(|values| numbers(values)).collect()
}
