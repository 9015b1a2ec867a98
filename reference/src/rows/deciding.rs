//! Decisions.

use super::full::{everything, key_of as full_key_of, longest_derivation, loose_key};
use super::ladder::{key_of, ladder, reversed, END};
use super::records::{access, binding, delegation, key, name, request_of, spaces};
use super::specimen::{faulty, BY_KEY_20, BY_KEY_40, BY_NAME_3, EMPTY, T};
use super::{decided, decided_in, numbers, stretched};
use crate::cases::requests::write_request;
use crate::cases::tables::write_table;
use crate::cases::Case;
use crate::limits::{DERIVATION_BYTES, SHEET_NUMBERS};
use crate::table::{AccessRecord, Delegation, Space, Table, Target};

/// The rows of decisions.
pub fn rows() -> Vec<Case> {
    let mut rows = small_rows();
    rows.extend(full_size());
    rows
}

/// Those of small tables: a grant there is shown in one way by whoever goes by
/// the rules in the table's order.
pub fn small_rows() -> Vec<Case> {
    let mut rows = of_the_specimen();
    rows.extend(refusals());
    rows.extend(rooms());
    rows.extend(competing());
    rows.extend(ladders());
    rows.extend(each_other());
    rows.extend(without_a_space());
    rows.extend(owners());
    rows.extend(dead_names());
    rows
}

/// P2, P3, P5 to P8.
fn of_the_specimen() -> Vec<Case> {
    let requests: [&[u32]; 4] = [
        &[0, 40, 0, 7, 3],
        &[1, 0, 1, 3, 0, 7, 3],
        &[1, 0, 1, 5, 0, 7, 3],
        &[0, 10, 0, 7, 2],
    ];
    let mut rows = vec![decided(&T, &BY_KEY_20), decided(&T, &BY_KEY_40)];
    rows.extend(requests.map(|values| decided(&T, &numbers(values))));
    rows
}

/// Each refusal, and which comes first.
fn refusals() -> Vec<Case> {
    let mut rows = Vec::new();
    for table in faulty() {
        rows.push(decided(&table, &BY_KEY_20));
        // Before Request and Room.
        rows.push(decided_in(&table, &[], 0, 0));
    }
    let requests = [
        Vec::new(),
        BY_KEY_20[..4].to_vec(),
        [&BY_KEY_20[..], &[0]].concat(),
        stretched(&BY_KEY_20, 65),
        numbers(&[0, 20, 3, 7, 2]),
        numbers(&[1, 3, 0, 0, 7, 2]),
        numbers(&[0, 20, 0, 7, 33]),
    ];
    for request in &requests {
        rows.push(decided(&T, request));
        // Before Room.
        rows.push(decided_in(&T, request, 0, 0));
    }
    rows.push(decided(&EMPTY, &BY_KEY_20));
    // Unnamed and Denied: the other object, right and owner among them.
    let others: [&[u32]; 7] = [
        &[1, 0, 1, 5, 0, 7, 2],
        &[1, 0, 2, 1, 1, 0, 7, 2],
        &[1, 2, 2, 4, 1, 0, 7, 2],
        &[0, 20, 0, 8, 2],
        &[0, 20, 0, 7, 1],
        &[0, 20, 1, 7, 2],
        &[0, 99, 0, 7, 2],
    ];
    rows.extend(others.map(|values| decided(&T, &numbers(values))));
    rows
}

/// Buffers just large enough, one short, and larger.
fn rooms() -> Vec<Case> {
    let mut rows = Vec::new();
    let unnamed = numbers(&[1, 0, 1, 5, 0, 7, 3]);
    let denied = numbers(&[0, 10, 0, 7, 2]);
    let sizes = [
        (SHEET_NUMBERS - 1, DERIVATION_BYTES),
        (SHEET_NUMBERS, DERIVATION_BYTES - 1),
        (SHEET_NUMBERS - 1, DERIVATION_BYTES - 1),
        (0, DERIVATION_BYTES),
        (SHEET_NUMBERS, 0),
        (6, 8),
        (SHEET_NUMBERS, DERIVATION_BYTES),
        (SHEET_NUMBERS + 1, DERIVATION_BYTES),
        (SHEET_NUMBERS, DERIVATION_BYTES + 1),
        (300, 600),
    ];
    for (sheet, derivation) in sizes {
        let requests: [&[u8]; 4] = [&BY_KEY_20, &BY_NAME_3, &unnamed, &denied];
        for request in requests {
            rows.push(decided_in(&T, request, sheet, derivation));
        }
    }
    rows
}

fn ask(table: &Table, subject: Target) -> Case {
    decided(&write_table(table), &write_request(&request_of(subject)))
}

/// Each of these subjects, with the records as they stand and the other way
/// round.
fn ask_both_ways(table: Table, subjects: &[Target]) -> Vec<Case> {
    let mut rows = Vec::new();
    for table in [table.clone(), reversed(table)] {
        for subject in subjects {
            rows.push(ask(&table, subject.clone()));
        }
    }
    rows
}

/// A table with these records: spaces 1 and 2, keys 20 and 30, can pass on to
/// key 40, and space 2 to space 1.
fn passing(access_records: Vec<AccessRecord>, delegations: Vec<Delegation>) -> Table {
    Table {
        spaces: spaces(&[10, 20, 30]),
        bindings: vec![
            binding(0, 1, key(20)),
            binding(0, 2, key(30)),
            binding(0, 3, key(40)),
            binding(1, 1, key(40)),
            binding(1, 2, name(0, &[])),
            binding(2, 1, key(40)),
            binding(2, 2, name(0, &[])),
            binding(2, 3, key(20)),
        ],
        access_records,
        delegations,
    }
}

/// Competing chains of different depth.
fn competing_tables() -> [Table; 6] {
    [
        // Two records of one name; the deeper comes later.
        passing(vec![access(0, &[3], 1), access(0, &[3], 4)], vec![]),
        // Listed itself at 0, and by a delegation deeper.
        passing(
            vec![access(0, &[3], 0), access(0, &[1], 5)],
            vec![delegation(1, &[2], &[1], 3)],
        ),
        // Two ways, by space 1 and by space 2.
        passing(
            vec![access(0, &[1], 3), access(0, &[2], 9)],
            vec![
                delegation(1, &[2], &[1], 15),
                delegation(2, &[2], &[1], 6),
                delegation(2, &[2], &[1], 7),
            ],
        ),
        // The longer way is the deeper one.
        passing(
            vec![access(0, &[1], 1), access(0, &[2], 15)],
            vec![delegation(1, &[2], &[1], 15), delegation(2, &[2], &[3], 15)],
        ),
        // The delegation's own depth is the smaller one.
        passing(
            vec![access(0, &[1], 15)],
            vec![
                delegation(1, &[2], &[1], 0),
                delegation(1, &[2], &[1], 14),
                delegation(1, &[2], &[1], 15),
            ],
        ),
        // Equal ways.
        passing(
            vec![access(0, &[1], 3), access(0, &[2], 3)],
            vec![delegation(1, &[2], &[1], 2), delegation(2, &[2], &[1], 2)],
        ),
    ]
}

/// Each of them, the deeper record first or last.
fn competing() -> Vec<Case> {
    let subjects = [key(20), key(30), key(40), name(0, &[3])];
    let tables = competing_tables().into_iter();
    tables
        .flat_map(|table| ask_both_ways(table, &subjects))
        .collect()
}

/// Chains of 15, 16 and 17 records, in order and against it.
fn ladders() -> Vec<Case> {
    let mut rows = Vec::new();
    for rungs in [1, 14, 15, 16] {
        let subjects = [key(END), key(key_of(rungs)), name(rungs, &[1])];
        for start in [14, 15] {
            let table = ladder(rungs, start, |_| 15);
            rows.extend(ask_both_ways(table, &subjects));
        }
        let needed = move |space: usize| (rungs - space).min(15) as u32;
        rows.extend(ask_both_ways(ladder(rungs, 15, needed), &subjects));
    }
    rows
}

/// Two spaces that delegate to each other, and one that does to itself.
fn each_other() -> Vec<Case> {
    let names = vec![
        binding(0, 1, key(20)),
        binding(1, 1, key(30)),
        binding(1, 2, name(0, &[])),
        binding(2, 1, key(20)),
        binding(2, 2, name(0, &[])),
        binding(2, 3, key(50)),
    ];
    let mut rows = Vec::new();
    for start in [0, 1, 2, 3, 15] {
        let table = Table {
            spaces: spaces(&[10, 20, 30]),
            bindings: names.clone(),
            access_records: vec![access(0, &[1], start)],
            delegations: vec![
                delegation(1, &[2], &[1], 15),
                delegation(2, &[2], &[1], 15),
                delegation(1, &[2], &[], 15),
                delegation(2, &[2], &[3], 1),
            ],
        };
        rows.extend(ask_both_ways(table, &[key(20), key(30), key(50)]));
    }
    rows
}

/// Subjects that are keys without a space, and one that has a space's number.
fn without_a_space() -> Vec<Case> {
    let table = Table {
        spaces: spaces(&[10, 20]),
        bindings: vec![
            binding(0, 1, key(99)),
            binding(0, 2, key(1)),
            binding(0, 3, key(20)),
            binding(1, 1, key(98)),
            binding(1, 2, name(0, &[])),
            binding(1, 3, key(0x7FFF_FFFF)),
        ],
        access_records: vec![access(0, &[1], 15), access(0, &[2], 15), access(0, &[3], 4)],
        delegations: vec![delegation(1, &[2], &[1], 9), delegation(1, &[2], &[3], 9)],
    };
    let subjects = [
        key(99),
        key(98),
        key(1),
        key(20),
        key(0x7FFF_FFFF),
        key(97),
        name(0, &[1]),
        name(0, &[2]),
        name(0, &[3, 1]),
        name(0, &[1, 1]),
        name(1, &[]),
    ];
    ask_both_ways(table, &subjects)
}

/// Whose object it is: only the owner's records open it, and the owner has no
/// access unless listed.
fn owners() -> Vec<Case> {
    let mut table = Table {
        spaces: spaces(&[10, 20, 30]),
        bindings: vec![
            binding(0, 1, key(20)),
            binding(1, 1, name(0, &[])),
            binding(1, 2, key(30)),
            binding(1, 3, key(99)),
            binding(2, 1, key(10)),
        ],
        // Space 1 lists itself, and the owner, for its own object 7.
        access_records: vec![access(1, &[], 15), access(1, &[1], 15)],
        // As if its own, as if another's, as if a key's without a space.
        delegations: vec![
            delegation(1, &[], &[2], 15),
            delegation(1, &[2], &[2], 15),
            delegation(1, &[3], &[2], 15),
        ],
    };
    let subjects = [key(10), key(20), key(30)];
    let mut rows = ask_both_ways(table.clone(), &subjects);
    // For its own object space 1 is heard.
    let mut request = request_of(key(30));
    request.owner = Space(1);
    rows.push(decided(&write_table(&table), &write_request(&request)));
    // The owner is listed, and passes it on by the empty path.
    table.access_records.push(access(0, &[], 6));
    rows.extend(ask_both_ways(table.clone(), &subjects));
    table.delegations.push(delegation(0, &[], &[1], 15));
    table.delegations.push(delegation(1, &[1], &[2], 15));
    rows.extend(ask_both_ways(table, &subjects));
    rows
}

/// Two names without a meaning do not meet.
fn dead_names() -> Vec<Case> {
    let table = Table {
        spaces: spaces(&[10, 20]),
        bindings: vec![
            binding(0, 1, name(0, &[1])),
            binding(0, 2, name(0, &[3])),
            binding(0, 4, key(20)),
            binding(1, 1, name(0, &[])),
            binding(1, 2, name(0, &[1])),
        ],
        access_records: vec![
            access(0, &[1], 15),
            access(0, &[2], 15),
            access(0, &[4], 15),
        ],
        delegations: vec![delegation(1, &[2], &[1], 15), delegation(1, &[1], &[2], 15)],
    };
    let subjects = [
        name(0, &[1]),
        name(0, &[2]),
        name(0, &[3]),
        name(1, &[2]),
        key(10),
        key(20),
        key(30),
    ];
    ask_both_ways(table, &subjects)
}

/// Full-size tables: everything matches; every binding is needed.
fn full_size() -> Vec<Case> {
    let table = everything();
    let subjects = [
        key(full_key_of(1)),
        key(full_key_of(63)),
        key(full_key_of(0)),
        key(loose_key(40)),
        key(1),
        name(5, &[3, 3, 1]),
    ];
    let mut rows: Vec<Case> = subjects.map(|subject| ask(&table, subject)).to_vec();
    for number in [1, 2] {
        let (table, subject) = longest_derivation(number);
        let mut request = request_of(key(1));
        request.owner = Space(15);
        if let Some(subject) = subject {
            request.subject = Target::Key(subject);
        }
        rows.push(decided(&write_table(&table), &write_request(&request)));
    }
    rows
}

#[cfg(test)]
mod tests {
    use super::*;
    use crate::line::answer_line;

    /// Number and depth of each row.
    fn answers(rows: &[Case]) -> Vec<(u32, u32)> {
        let fields = |row: &Case| -> Vec<u32> {
            let line = answer_line(row);
            let numbers = line.split(' ').take(3).filter_map(|n| n.parse().ok());
            numbers.collect()
        };
        rows.iter().map(|r| (fields(r)[0], fields(r)[2])).collect()
    }

    const DENIED: (u32, u32) = (11, 0);
    const UNNAMED: (u32, u32) = (10, 0);

    /// Key 40 gets the deepest, whatever comes first in the table.
    #[test]
    fn competing_by_hand() {
        let answers = answers(&competing());
        let tables = answers.chunks(8);
        assert_eq!(tables.len(), 6);
        for (table, depth) in tables.zip([4, 3, 7, 13, 14, 2]) {
            for place in [2, 3, 6, 7] {
                assert_eq!(table[place], (0, depth));
            }
        }
    }

    #[test]
    fn ladders_by_hand() {
        let answers = answers(&ladders());
        // The end, the last rung, and a name of the end.
        let expected = [
            [(0, 13), (0, 14), (0, 13)],
            [(0, 14), (0, 15), (0, 14)],
            [(0, 0), (0, 15), (0, 0)],
            [(0, 0), (0, 1), (0, 0)],
            [(0, 1), (0, 2), (0, 1)],
            [(0, 0), (0, 1), (0, 0)],
            [DENIED, (0, 0), DENIED],
            [(0, 0), (0, 1), (0, 0)],
            [(0, 0), (0, 1), (0, 0)],
            [DENIED, DENIED, DENIED],
            [DENIED, (0, 0), DENIED],
            [DENIED, (0, 0), DENIED],
        ];
        for (both, expected) in answers.chunks(6).zip(expected) {
            assert_eq!(both[..3], expected);
            assert_eq!(both[3..], expected);
        }
        assert_eq!(answers.len(), 6 * expected.len());
    }

    #[test]
    fn each_other_by_hand() {
        let answers = answers(&each_other());
        let expected = [
            [(0, 0), DENIED, DENIED],
            [(0, 1), (0, 0), DENIED],
            [(0, 2), (0, 1), (0, 0)],
            [(0, 3), (0, 2), (0, 1)],
            [(0, 15), (0, 14), (0, 1)],
        ];
        for (both, expected) in answers.chunks(6).zip(expected) {
            assert_eq!(both[..3], expected);
            assert_eq!(both[3..], expected);
        }
        assert_eq!(answers.len(), 6 * expected.len());
    }

    #[test]
    fn keys_without_a_space_by_hand() {
        let answers = answers(&without_a_space());
        let expected = [
            (0, 15),
            (0, 3),
            (0, 15),
            (0, 4),
            (0, 3),
            DENIED,
            (0, 15),
            (0, 15),
            (0, 3),
            UNNAMED,
            (0, 4),
        ];
        assert_eq!(answers[..11], expected);
        assert_eq!(answers[11..], expected);
    }

    #[test]
    fn owners_by_hand() {
        let answers = answers(&owners());
        assert_eq!(answers[..6], [DENIED; 6]);
        assert_eq!(answers[6], (0, 14));
        let listed = [(0, 6), DENIED, DENIED];
        assert_eq!(answers[7..13], [listed, listed].concat());
        let passed_on = [(0, 6), (0, 5), (0, 4)];
        assert_eq!(answers[13..], [passed_on, passed_on].concat());
    }

    #[test]
    fn dead_names_by_hand() {
        let answers = answers(&dead_names());
        let expected = [UNNAMED, UNNAMED, UNNAMED, UNNAMED, DENIED, (0, 15), DENIED];
        assert_eq!(answers[..7], expected);
        assert_eq!(answers[7..], expected);
    }

    /// Every one of the 256 bindings and a chain of 16 records: 419 bytes.
    #[test]
    fn the_longest_derivation() {
        let rows = full_size();
        for row in &rows[rows.len() - 2..] {
            let line = answer_line(row);
            assert!(line.starts_with("0 0 0 419 "), "{line}");
        }
    }
}
