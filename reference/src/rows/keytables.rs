//! Key tables, read.

use super::specimen::{EMPTY, P10, P9, T};
use super::{changes, each, key_table, neighbours, not_shortest, numbers, stretched};
use super::{truncations, wrong_forms, ENDLESS, FAR_TOO_LARGE, MOST, TOO_LARGE};
use crate::cases::Case;
use crate::limits::KEY_TABLE_BYTES;

/// The rows of key tables that are read.
pub fn rows() -> Vec<Case> {
    let mut rows = of_the_specimen();
    rows.extend(first_numbers());
    rows.extend(fields());
    rows.extend(counts());
    rows.extend(orders());
    rows.extend(wide());
    rows.extend(lengths());
    rows.into_iter().map(key_table).collect()
}

/// P9's key table and P10's, and what can befall them.
fn of_the_specimen() -> Vec<Vec<u8>> {
    let mut rows = vec![P9.to_vec(), P10.to_vec(), Vec::new()];
    for byte in [0x00, 0x80, 0xFF] {
        rows.push([&P9[..], &[byte]].concat());
        rows.push([&P10[..], &[byte]].concat());
    }
    // Each number of P9 has one byte.
    let values = P9.map(u32::from);
    rows.extend(truncations(&P9));
    rows.extend(changes(&P9));
    rows.extend(neighbours(&P9));
    rows.extend(wrong_forms(&values));
    // Tables are no key tables.
    rows.extend([T.to_vec(), EMPTY.to_vec()]);
    rows
}

/// Versions, and first numbers that are none.
fn first_numbers() -> Vec<Vec<u8>> {
    let mut rows = each(&[0, 1, 2, MOST], |n| vec![n, 0, 0]);
    rows.push(vec![0x80, 0x00]);
    rows.push(TOO_LARGE.to_vec());
    rows.push(FAR_TOO_LARGE.to_vec());
    for length in 1..=6 {
        rows.push(vec![0x80; length]);
    }
    rows.push([&ENDLESS[..], &[0x00]].concat());
    rows
}

/// A key table with this access record.
fn with_access(row: &[u32]) -> Vec<u32> {
    [&[0, 1], row, &[0]].concat()
}

/// A key table with this delegation.
fn with_delegation(row: &[u32]) -> Vec<u32> {
    [&[0, 0, 1], row].concat()
}

/// Each field at its edges.
fn fields() -> Vec<Vec<u8>> {
    let keys = [0, 1, MOST];
    let objects = [0, 65_535, 65_536, MOST];
    let rights = [0, 1, 32, 33];
    let depths = [0, 15, 16, MOST];
    let mut rows = each(&keys, |n| with_access(&[n, 7, 2, 20, 1]));
    rows.extend(each(&objects, |n| with_access(&[10, n, 2, 20, 1])));
    rows.extend(each(&rights, |n| with_access(&[10, 7, n, 20, 1])));
    rows.extend(each(&keys, |n| with_access(&[10, 7, 2, n, 1])));
    rows.extend(each(&depths, |n| with_access(&[10, 7, 2, 20, n])));
    rows.extend(each(&keys, |n| with_delegation(&[n, 10, 7, 2, 40, 3])));
    rows.extend(each(&keys, |n| with_delegation(&[20, n, 7, 2, 40, 3])));
    rows.extend(each(&objects, |n| with_delegation(&[20, 10, n, 2, 40, 3])));
    rows.extend(each(&rights, |n| with_delegation(&[20, 10, 7, n, 40, 3])));
    rows.extend(each(&keys, |n| with_delegation(&[20, 10, 7, 2, n, 3])));
    rows.extend(each(&depths, |n| with_delegation(&[20, 10, 7, 2, 40, n])));
    rows
}

/// As many access records.
fn access_records(count: u32) -> Vec<u32> {
    let records: Vec<u32> = (0..count).flat_map(|_| [10, 7, 2, 20, 15]).collect();
    [&[0, count], &records[..], &[0]].concat()
}

/// As many delegations.
fn delegations(count: u32) -> Vec<u32> {
    let records: Vec<u32> = (0..count).flat_map(|_| [20, 10, 7, 2, 40, 15]).collect();
    [&[0, 0, count], &records[..]].concat()
}

/// Each section at its limit and one past it, with its records and without.
fn counts() -> Vec<Vec<u8>> {
    let mut rows = each(&[255, 256, 257], access_records);
    rows.extend(each(&[511, 512, 513], delegations));
    rows.extend(each(&[1, 256, 257, MOST], |n| vec![0, n]));
    rows.extend(each(&[1, 512, 513, MOST], |n| vec![0, 0, n]));
    rows
}

/// Faults of one number and faults that follow one another: the first counts.
fn orders() -> Vec<Vec<u8>> {
    vec![
        // Cut and Number before Version.
        vec![0x81],
        vec![0x81, 0x00],
        // Number before Range: 257 access records, the key 0.
        [&[0], &not_shortest(257)[..]].concat(),
        [&[0, 1], &not_shortest(0)[..], &[7, 2, 20, 1, 0]].concat(),
        // Version before all that follows it, Extra after all the rest.
        [&[0x01], &[0xFF; 9][..]].concat(),
        numbers(&[0, 1, 10, 7, 2, 20, 16, 0, 0]),
        // Records may repeat.
        numbers(&[0, 2, 10, 7, 2, 20, 1, 10, 7, 2, 20, 1, 0]),
        numbers(&[0, 0, 2, 20, 10, 7, 2, 40, 3, 20, 10, 7, 2, 40, 3]),
    ]
}

/// A key table whose numbers have up to five bytes, cut everywhere and with
/// each number in each wrong form.
fn wide() -> Vec<Vec<u8>> {
    let values = [
        &[0, 2][..],
        &[MOST, 65_535, 32, 1 << 28, 15],
        &[1 << 21, 128, 1, 1 << 14, 0],
        &[1, 128, MOST, 16_384, 31, 300, 14],
    ]
    .concat();
    let mut rows = vec![numbers(&values)];
    rows.extend(truncations(&numbers(&values)));
    rows.extend(wrong_forms(&values));
    rows
}

/// The largest good key table, and key tables of 16,384 bytes and of one more.
fn lengths() -> Vec<Vec<u8>> {
    let largest = largest();
    let other_version = [&[9], &P9[1..]].concat();
    vec![
        largest.clone(),
        largest[..largest.len() - 1].to_vec(),
        [&largest[..], &[0]].concat(),
        stretched(&largest, KEY_TABLE_BYTES),
        stretched(&largest, KEY_TABLE_BYTES + 1),
        stretched(&P9, KEY_TABLE_BYTES),
        stretched(&P9, KEY_TABLE_BYTES + 1),
        stretched(&other_version, KEY_TABLE_BYTES + 1),
    ]
}

/// Both sections full, every number as wide as it can be.
pub fn largest() -> Vec<u8> {
    let mut values = vec![0, 256];
    for _ in 0..256 {
        values.extend([MOST, 65_535, 32, MOST, 15]);
    }
    values.push(512);
    for _ in 0..512 {
        values.extend([MOST, MOST, 65_535, 32, MOST, 15]);
    }
    numbers(&values)
}

#[cfg(test)]
mod tests {
    use super::*;
    use crate::line::answer_line;

    fn lines(rows: Vec<Vec<u8>>) -> Vec<String> {
        let rows = rows.into_iter().map(key_table);
        rows.map(|row| answer_line(&row)).collect()
    }

    /// The longest key table has 14,085 bytes, and is read.
    #[test]
    fn lengths_by_hand() {
        assert_eq!(largest().len(), 14_085);
        let expected = [
            "0 256 512",
            "2 14084",
            "6 14085",
            "6 14085",
            "1 0",
            "6 19",
            "1 0",
            "1 0",
        ];
        assert_eq!(lines(lengths()), expected);
    }

    #[test]
    fn counts_by_hand() {
        let expected = [
            "0 255 0", "0 256 0", "4 1", "0 0 511", "0 0 512", "4 2", "2 2", "2 3", "4 1", "4 1",
            "2 3", "2 4", "4 2", "4 2",
        ];
        assert_eq!(lines(counts()), expected);
    }
}
