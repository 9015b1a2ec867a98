//! Name sheets.

use super::full::{crossed, everything, longest_derivation};
use super::records::{binding, key, name, spaces};
use super::specimen::{faulty, EMPTY, T};
use super::{numbers, sheet, MOST};
use crate::cases::tables::write_table;
use crate::cases::Case;
use crate::limits::BINDINGS;
use crate::table::{Binding, Table, Target};

/// The rows of name sheets.
pub fn rows() -> Vec<Case> {
    let mut rows = vec![T.to_vec(), EMPTY.to_vec()];
    // Spaces and no bindings.
    rows.push(numbers(&[1, 2, 7, 8, 0, 0, 0]));
    // A table's faults come instead of its sheet.
    rows.extend(faulty());
    let tables = single().into_iter().chain(chains()).chain(circles());
    let tables = tables.chain(four_spaces()).chain(keys_and_spaces());
    rows.extend(tables.chain(full_size()).map(|table| write_table(&table)));
    rows.into_iter().map(sheet).collect()
}

/// A table of these spaces and bindings.
fn table(keys: &[u32], bindings: Vec<Binding>) -> Table {
    Table {
        spaces: spaces(keys),
        bindings,
        ..Table::default()
    }
}

/// The table, and the table with its bindings the other way round.
fn both_ways(table: Table) -> Vec<Table> {
    let mut other = table.clone();
    other.bindings.reverse();
    vec![table, other]
}

/// Tables with one binding in space 0, or with two.
fn single() -> Vec<Table> {
    let with = |target: Target| table(&[10, 20], vec![binding(0, 1, target)]);
    let mut tables = vec![
        // To itself: by one name, by two, by four.
        with(name(0, &[1])),
        with(name(0, &[1, 1])),
        with(name(0, &[1, 1, 1, 1])),
        // To a name with an empty path: another's SELF key, one's own.
        with(name(1, &[])),
        with(name(0, &[])),
        // To a name that nobody bound.
        with(name(0, &[2])),
        with(name(1, &[1])),
        with(name(0, &[65_535])),
        // To a key: of a space, of none, the least, the greatest.
        with(key(20)),
        with(key(30)),
        with(key(1)),
        with(key(MOST)),
    ];
    // To itself by the name of a space that is itself.
    tables.extend(both_ways(table(
        &[10],
        vec![binding(0, 1, name(0, &[])), binding(0, 2, name(0, &[1, 2]))],
    )));
    // One base name in two spaces, and a target that is the other's.
    tables.extend(both_ways(table(
        &[10, 20],
        vec![
            binding(0, 65_535, key(30)),
            binding(1, 65_535, name(0, &[65_535])),
        ],
    )));
    tables
}

/// As many bindings as there can be, each to the name of the next, the last to
/// this target; dealt out to so many spaces in turn.
fn chain(count_of_spaces: usize, end: Target) -> Table {
    let keys: Vec<u32> = (1..=count_of_spaces as u32).map(|n| 10 * n).collect();
    let place = |at: usize| (at % count_of_spaces, (at / count_of_spaces) as u32 + 1);
    let count = BINDINGS as usize;
    let mut bindings = Vec::new();
    for at in 0..count {
        let (space, base_name) = place(at);
        let (next_space, next_name) = place(at + 1);
        let target = if at + 1 < count {
            name(next_space, &[next_name])
        } else {
            end.clone()
        };
        bindings.push(binding(space, base_name, target));
    }
    table(&keys, bindings)
}

/// Chains of 256 bindings forward and backward: to a key, to a space, to a
/// name that nobody bound, and back to the first.
fn chains() -> Vec<Table> {
    let mut tables = Vec::new();
    for end in [key(99), name(0, &[]), name(0, &[300]), name(0, &[1])] {
        tables.extend(both_ways(chain(1, end)));
    }
    tables.extend(both_ways(chain(64, key(99))));
    tables.extend(both_ways(chain(3, key(30))));
    tables
}

/// Circles that meet, and names that lead into them, past them and out of them.
fn circles() -> Vec<Table> {
    let two = vec![
        binding(0, 1, name(0, &[2])),
        binding(0, 2, name(0, &[3])),
        binding(0, 3, name(0, &[1])),
        binding(0, 4, name(0, &[5])),
        binding(0, 5, name(0, &[4])),
        binding(0, 6, name(0, &[1])),
        binding(0, 7, name(0, &[4, 1])),
        binding(0, 8, name(0, &[1, 4])),
        // Past them: space 1 binds the base name 1 to a key.
        binding(0, 9, key(20)),
        binding(1, 1, key(55)),
        binding(0, 10, name(0, &[9, 1])),
        binding(1, 4, name(0, &[10])),
    ];
    // Binding 0 is on both circles: its path has a name of each.
    let meeting = vec![
        binding(0, 1, name(0, &[2, 3])),
        binding(0, 2, name(0, &[1])),
        binding(0, 3, name(0, &[1])),
    ];
    // The same where a part of each path has a meaning.
    let half = vec![
        binding(0, 1, name(0, &[4, 2])),
        binding(0, 2, name(0, &[4, 1])),
        binding(0, 3, name(0, &[4, 4, 1])),
        binding(0, 4, name(0, &[])),
        binding(0, 5, name(0, &[4, 4, 4, 4])),
    ];
    // Two spaces that each leave the base name to the other.
    let across = vec![
        binding(0, 1, name(1, &[1])),
        binding(1, 1, name(0, &[1])),
        binding(0, 2, name(1, &[2])),
        binding(1, 2, key(10)),
        binding(1, 3, name(0, &[2, 2])),
    ];
    [two, meeting, half, across]
        .into_iter()
        .flat_map(|bindings| both_ways(table(&[10, 20], bindings)))
        .collect()
}

/// Names through four spaces: paths of one name to four.
fn four_spaces() -> Vec<Table> {
    let bindings = vec![
        binding(0, 11, name(0, &[1])),
        binding(0, 12, name(0, &[1, 1])),
        binding(0, 13, name(0, &[1, 1, 1])),
        binding(0, 14, name(0, &[1, 1, 1, 1])),
        // From the second space on; the fourth name is asked of a key.
        binding(0, 15, name(1, &[1, 1, 1])),
        binding(0, 16, name(1, &[1, 1, 1, 1])),
        // Through what others mean by their names.
        binding(1, 17, name(0, &[11, 1])),
        binding(2, 18, name(0, &[12, 1, 1])),
        binding(3, 19, name(2, &[18])),
        binding(0, 1, key(20)),
        binding(1, 1, name(2, &[])),
        binding(2, 1, key(40)),
        binding(3, 1, key(50)),
    ];
    both_ways(table(&[10, 20, 30, 40], bindings))
}

/// A key without a space asked for a base name, and keys with the numbers of
/// spaces.
fn keys_and_spaces() -> Vec<Table> {
    let nobody = vec![
        binding(0, 1, key(99)),
        binding(0, 2, name(0, &[1])),
        binding(0, 3, name(0, &[1, 1])),
        binding(0, 4, name(0, &[2, 1, 1])),
    ];
    // Key 1 is nobody's, though there is a space 1.
    let number = vec![
        binding(0, 1, key(1)),
        binding(1, 1, key(77)),
        binding(0, 2, name(0, &[1, 1])),
    ];
    // The keys of spaces 0 and 1 are 1 and 2.
    let crossing = vec![
        binding(0, 1, key(1)),
        binding(1, 1, key(2)),
        binding(0, 2, name(0, &[1, 1])),
        binding(1, 2, name(1, &[1, 1])),
        binding(0, 3, name(1, &[2, 1])),
    ];
    let mut tables = both_ways(table(&[10, 20], nobody));
    tables.extend(both_ways(table(&[10, 20], number)));
    tables.extend(both_ways(table(&[1, 2], crossing)));
    tables
}

/// Every space and every binding there can be.
fn full_size() -> Vec<Table> {
    let mut tables: Vec<Table> = (1..=4).map(crossed).collect();
    let names_of = |table: Table| Table {
        access_records: Vec::new(),
        delegations: Vec::new(),
        ..table
    };
    tables.extend(both_ways(names_of(everything())));
    tables.push(names_of(longest_derivation(1).0));
    // With every record.
    tables.push(everything());
    tables
}
