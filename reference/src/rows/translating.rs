//! Translations.

use super::full::{crossed, everything, longest_translation};
use super::records::{access, binding, delegation, key, name, spaces};
use super::specimen::{faulty, EMPTY, P9, T};
use super::{numbers, translated, translated_in, MOST};
use crate::cases::tables::write_table;
use crate::cases::Case;
use crate::limits::KEY_TABLE_BYTES;
use crate::table::{AccessRecord, Delegation, Table};

/// The rows of translations: P9, P10, buffers of various lengths, faulty tables,
/// dead names, full size.
pub fn rows() -> Vec<Case> {
    let mut rows = vec![translated(&T), translated(&EMPTY)];
    rows.push(translated_in(&T, KEY_TABLE_BYTES - 1));
    rows.push(translated_in(&EMPTY, KEY_TABLE_BYTES - 1));
    rows.push(translated_in(&T, KEY_TABLE_BYTES + 1));
    for room in [0, 3, 19] {
        rows.push(translated_in(&T, room));
        rows.push(translated_in(&EMPTY, room));
    }
    // The table's faults come before Room, and touch nothing.
    rows.extend(faulty().iter().map(|table| translated_in(table, 0)));
    rows.push(translated(&T[..58]));
    // A key table is no table.
    rows.push(translated_in(&P9, 0));
    let tables = [
        dead_names(),
        keys_without_a_space(),
        everything(),
        longest_translation(),
        crossed(1),
    ];
    rows.extend(tables.map(|table| translated(&write_table(&table))));
    // Spaces and a binding, and no records.
    rows.push(translated(&numbers(&[1, 2, 7, 8, 1, 0, 1, 0, 9, 0, 0])));
    rows
}

/// Records with a meaningless path in each position, between good ones.
fn dead_names() -> Table {
    let (good, owner): (&[u32], &[u32]) = (&[1], &[2]);
    // A circle, a name that leads to it, a name that nobody bound, a key
    // without a space asked for a base name.
    let dead: [&[u32]; 4] = [&[3], &[4], &[5], &[1, 1]];
    let mut table = Table {
        spaces: spaces(&[10, 20]),
        bindings: vec![
            binding(0, 1, key(99)),
            binding(0, 2, name(1, &[])),
            binding(0, 3, name(0, &[3])),
            binding(0, 4, name(0, &[3])),
        ],
        ..Table::default()
    };
    for (depth, path) in (0..).zip(dead) {
        table.access_records.extend([
            access(0, good, depth),
            access(0, path, depth),
            access(1, &[], depth),
        ]);
        table.delegations.extend([
            delegation(0, owner, good, depth),
            delegation(0, path, good, depth),
            delegation(0, owner, path, depth),
            delegation(0, path, path, depth),
            delegation(1, &[], &[], depth),
        ]);
    }
    table
}

/// Paths that mean keys without a space: such records are written.
fn keys_without_a_space() -> Table {
    Table {
        spaces: spaces(&[MOST, 1]),
        bindings: vec![binding(0, 1, key(99)), binding(1, 65_535, key(1 << 28))],
        access_records: vec![
            access(0, &[1], 15),
            AccessRecord {
                object: 0,
                right: 32,
                ..access(1, &[65_535], 0)
            },
        ],
        delegations: vec![
            delegation(0, &[1], &[1], 15),
            Delegation {
                object: 65_535,
                right: 1,
                ..delegation(1, &[65_535], &[], 14)
            },
        ],
    }
}

#[cfg(test)]
mod tests {
    use super::super::key_table;
    use super::super::keytables::largest;
    use super::*;
    use crate::line::{answer_line, hash_of};
    use crate::translate;

    /// The key table that a table is translated to.
    fn key_table_of(table: &Table) -> Vec<u8> {
        let mut buffer = vec![0; KEY_TABLE_BYTES];
        let answer = translate(&write_table(table), &mut buffer);
        assert_eq!(answer.number, 0);
        buffer[..answer.length as usize].to_vec()
    }

    /// "omits a record when any of its paths has no meaning."
    #[test]
    fn dead_names_by_hand() {
        let mut values = vec![0, 8];
        for depth in 0..4 {
            values.extend([10, 7, 2, 99, depth]);
            values.extend([20, 7, 2, 20, depth]);
        }
        values.push(8);
        for depth in 0..4 {
            values.extend([10, 20, 7, 2, 99, depth]);
            values.extend([20, 20, 7, 2, 20, depth]);
        }
        assert_eq!(key_table_of(&dead_names()), numbers(&values));
    }

    #[test]
    fn keys_without_a_space_by_hand() {
        let values = [
            &[0, 2][..],
            &[MOST, 7, 2, 99, 15],
            &[1, 0, 32, 1 << 28, 0],
            &[2],
            &[MOST, 99, 7, 2, 99, 15],
            &[1, 1 << 28, 65_535, 1, 1, 14],
        ]
        .concat();
        assert_eq!(key_table_of(&keys_without_a_space()), numbers(&values));
    }

    /// The longest key table there is.
    #[test]
    fn the_longest_key_table() {
        assert_eq!(key_table_of(&longest_translation()), largest());
    }

    #[test]
    fn a_full_table_keeps_every_record() {
        let bytes = key_table_of(&everything());
        assert_eq!(answer_line(&key_table(bytes)), "0 256 512");
    }

    /// A refusal touches nothing.
    #[test]
    fn refusals_leave_the_buffer() {
        for row in rows() {
            let line = answer_line(&row);
            if !line.starts_with("0 ") {
                assert!(line.ends_with(&hash_of(&row.parts[1])), "{line}");
            }
        }
    }
}
