//! The groups of rows: document 01's own rows get document 01's answers.

mod common;

use std::collections::BTreeSet;

use common::{numbers, T};
use reference::cases::{read_cases, write_case, Case, Kind};
use reference::line::{answer_line, hash_of, hash_of_numbers, numbers_of};
use reference::rows;

const GROUPS: [&str; 5] = ["reading", "names", "checking", "deciding", "translating"];

/// P9's key table, 19 bytes.
const KEY_TABLE: [u8; 19] = [
    0x00, 0x02, 0x0A, 0x07, 0x02, 0x14, 0x01, 0x0A, 0x07, 0x03, 0x1E, 0x00, 0x01, 0x14, 0x0A, 0x07,
    0x02, 0x28, 0x03,
];

fn group(name: &str) -> Vec<Case> {
    rows::group(name).unwrap_or_else(|| panic!("no group {name}"))
}

/// The first row of a group that has this kind and begins with these parts.
fn row(name: &str, kind: Kind, parts: &[&[u8]]) -> Case {
    let rows = group(name);
    let found = rows.into_iter().find(|case| {
        let mut both = case.parts.iter().zip(parts);
        case.kind == kind && both.all(|(one, other)| one == other)
    });
    found.unwrap_or_else(|| panic!("no row {parts:?} in {name}"))
}

fn line(name: &str, kind: Kind, parts: &[&[u8]]) -> String {
    answer_line(&row(name, kind, parts))
}

/// A request of a key for a right on object 7 of owner space 0.
fn by_key(key: u8, right: u8) -> [u8; 5] {
    [0, key, 0, 7, right]
}

/// A request of a path of one name in space 0.
fn by_name(base_name: u8, right: u8) -> [u8; 7] {
    [1, 0, 1, base_name, 0, 7, right]
}

#[test]
fn p1_sheet() {
    let sheet = line("names", Kind::NameSheet, &[&T]);
    assert_eq!(sheet, "0 20 30 30 40 0 10");
}

#[test]
fn p2_to_p4_checked() {
    let check = |request: &[u8], derivation: &[u8]| {
        line("checking", Kind::Check, &[&T, request, derivation])
    };
    assert_eq!(check(&by_key(20, 2), &[1, 0, 1, 0]), "0 0 1 0");
    let p3 = [4, 0, 1, 3, 5, 2, 0, 0];
    assert_eq!(check(&by_key(40, 2), &p3), "0 0 0 0");
    let p4 = [3, 0, 1, 3, 2, 0, 0];
    assert_eq!(check(&by_key(40, 2), &p4), "12 0 0 0");
}

/// What a row's sheet holds after T was decided: P1, and what stood there.
fn sheet_after(row: &Case) -> String {
    let mut sheet = numbers_of(&row.parts[2]);
    sheet[..6].copy_from_slice(&[20, 30, 30, 40, 0, 10]);
    hash_of_numbers(&sheet)
}

/// Decisions that are refused: number, sheet, derivation buffer as it was.
fn refused(request: &[u8], answer: &str) {
    let row = row("deciding", Kind::Decide, &[&T, request]);
    let (sheet, rest) = (sheet_after(&row), hash_of(&row.parts[3]));
    assert_eq!(answer_line(&row), format!("{answer} {sheet} {rest} -"));
}

/// Decisions that are granted: depth, length, sheet and derivation.
fn granted(request: &[u8], answer: &str, derivation: &[u8]) {
    let row = row("deciding", Kind::Decide, &[&T, request]);
    let sheet = sheet_after(&row);
    let rest = hash_of(&row.parts[3][derivation.len()..]);
    let hex: String = derivation.iter().map(|b| format!("{b:02x}")).collect();
    let line = format!("{answer} {sheet} {rest} {hex}");
    assert_eq!(answer_line(&row), line);
}

#[test]
fn p2_to_p8_decided() {
    granted(&by_key(20, 2), "0 0 1 4", &[1, 0, 1, 0]);
    refused(&by_key(40, 3), "11 0 0 0");
    refused(&by_name(5, 3), "10 0 0 0");
    refused(&by_key(10, 2), "11 0 0 0");
    // The order of the bindings is the decision's own choice.
    for request in [&by_key(40, 2)[..], &by_name(3, 3)] {
        let line = line("deciding", Kind::Decide, &[&T, request]);
        assert!(line.starts_with("0 0 0 "), "{line}");
    }
}

/// What a row's buffer holds after this key table was written.
fn written(row: &Case, key_table: &[u8]) -> String {
    let rest = &row.parts[1][key_table.len()..];
    hash_of(&[key_table, rest].concat())
}

#[test]
fn p9_and_p10_translated() {
    let p9 = row("translating", Kind::Translate, &[&T]);
    assert_eq!(p9.parts[1].len(), 16_384);
    let hash = written(&p9, &KEY_TABLE);
    assert_eq!(answer_line(&p9), format!("0 0 0 19 {hash}"));
    let p10 = row("translating", Kind::Translate, &[&[1, 0, 0, 0, 0]]);
    let hash = written(&p10, &[0, 0, 0]);
    assert_eq!(answer_line(&p10), format!("0 0 0 3 {hash}"));
}

#[test]
fn p9_and_p10_read_and_decided() {
    let read = |bytes: &[u8]| line("translating", Kind::ReadKeyTable, &[bytes]);
    assert_eq!(read(&KEY_TABLE), "0 2 1");
    assert_eq!(read(&[0, 0, 0]), "0 0 0");
    assert_eq!(read(&[]), "2 0");
    assert_eq!(read(&KEY_TABLE[..18]), "2 18");
    assert_eq!(read(&[&KEY_TABLE[..], &[0]].concat()), "6 19");
    assert_eq!(read(&T), "7 0");
    // P2, P3, P5, P6 and P8, in keys.
    let rows = [
        ([20, 10, 7, 2], "0 0 1 0"),
        ([40, 10, 7, 2], "0 0 0 0"),
        ([40, 10, 7, 3], "11 0 0 0"),
        ([30, 10, 7, 3], "0 0 0 0"),
        ([10, 10, 7, 2], "11 0 0 0"),
    ];
    for (request, expected) in rows {
        let parts: [&[u8]; 2] = [&KEY_TABLE, &request];
        assert_eq!(line("translating", Kind::DecideByKeys, &parts), expected);
    }
}

/// "Outputs wanted, else Room: sheet 256 numbers and derivation 512 bytes for
/// the decision, key table 16,384 bytes for the translation."
#[test]
fn rooms() {
    let mut seen = BTreeSet::new();
    for case in group("deciding") {
        if case.parts[..2] != [T.to_vec(), by_key(20, 2).to_vec()] {
            continue;
        }
        let (sheet, derivation) = (case.parts[2].len() / 4, case.parts[3].len());
        let line = answer_line(&case);
        if sheet < 256 || derivation < 512 {
            let before = hash_of(&case.parts[2]);
            let rest = hash_of(&case.parts[3]);
            assert_eq!(line, format!("9 0 0 0 {before} {rest} -"));
        } else {
            assert!(line.starts_with("0 0 1 4 "), "{line}");
        }
        seen.insert((sheet, derivation));
    }
    for sizes in [(255, 512), (256, 511), (256, 512)] {
        assert!(seen.contains(&sizes), "{sizes:?}");
    }
    let rows = group("translating");
    let of_t = rows.iter().filter(|case| {
        case.kind == Kind::Translate && case.parts[0] == T && case.parts[1].len() == 16_383
    });
    let lines: Vec<String> = of_t.map(answer_line).collect();
    let untouched = hash_of(&vec![0xA5; 16_383]);
    assert_eq!(lines, [format!("9 0 0 0 {untouched}")]);
}

/// A line of a sheet with so many entries, each this one.
fn entries(count: usize, entry: u32) -> String {
    "0".to_string() + &format!(" {entry}").repeat(count)
}

/// The bytes of a table with one space of key 10 and 256 bindings, each to the
/// name of the next, the last to this target.
fn chain(end: &[u32], backward: bool) -> Vec<u8> {
    let mut bindings: Vec<Vec<u32>> = (1..256).map(|n| vec![0, n, 1, 0, 1, n + 1]).collect();
    bindings.push([&[0, 256], end].concat());
    if backward {
        bindings.reverse();
    }
    numbers(&[&[1, 1, 10, 256], &bindings.concat()[..], &[0, 0]].concat())
}

#[test]
fn chains_and_circles_of_256() {
    for backward in [false, true] {
        let sheet = |end: &[u32]| line("names", Kind::NameSheet, &[&chain(end, backward)]);
        assert_eq!(sheet(&[0, 99]), entries(256, 99));
        assert_eq!(sheet(&[1, 0, 0]), entries(256, 10));
        assert_eq!(sheet(&[1, 0, 1, 1]), entries(256, 0));
    }
}

#[test]
fn single_bindings() {
    let sheet = |target: &[u32]| {
        let values = [&[1, 2, 10, 20, 1, 0, 1], target, &[0, 0]].concat();
        line("names", Kind::NameSheet, &[&numbers(&values)])
    };
    // To itself, to a space's empty path, to a name that nobody bound, to a key.
    assert_eq!(sheet(&[1, 0, 1, 1]), "0 0");
    assert_eq!(sheet(&[1, 1, 0]), "0 20");
    assert_eq!(sheet(&[1, 0, 1, 2]), "0 0");
    assert_eq!(sheet(&[0, 4_294_967_295]), "0 4294967295");
}

/// The answer numbers that the rows of this kind in a group get.
fn answers(name: &str, kind: Kind) -> Vec<u32> {
    let rows = group(name).into_iter().filter(|case| case.kind == kind);
    let lines = rows.map(|case| answer_line(&case));
    let numbers = lines.map(|line| line.split(' ').next().and_then(|n| n.parse().ok()));
    let distinct: BTreeSet<Option<u32>> = numbers.collect();
    distinct.into_iter().flatten().collect()
}

/// Every answer of the list that a kind can give is given by some row; 13 by
/// none, for no derivation is that long.
#[test]
fn every_answer_occurs() {
    let table_faults = [1, 2, 3, 4, 5, 6, 7];
    let with = |others: &[u32]| [&[0], &table_faults[..], others].concat();
    assert_eq!(answers("names", Kind::NameSheet), with(&[]));
    assert_eq!(answers("checking", Kind::Check), with(&[8, 12]));
    assert_eq!(answers("deciding", Kind::Decide), with(&[8, 9, 10, 11]));
    assert_eq!(answers("translating", Kind::Translate), with(&[9]));
    let read = answers("translating", Kind::ReadKeyTable);
    assert_eq!(read, [0, 1, 2, 3, 4, 6, 7]);
    let decided = answers("translating", Kind::DecideByKeys);
    assert_eq!(decided, [0, 1, 2, 3, 4, 6, 7, 8, 11]);
}

#[test]
fn groups_are_case_files_of_their_kinds() {
    let kinds: [&[Kind]; 5] = [
        &[
            Kind::ReadTable,
            Kind::ReadRequest,
            Kind::ReadDerivation,
            Kind::ReadKeyRequest,
        ],
        &[Kind::NameSheet],
        &[Kind::Check],
        &[Kind::Decide],
        &[Kind::ReadKeyTable, Kind::Translate, Kind::DecideByKeys],
    ];
    for (name, kinds) in GROUPS.into_iter().zip(kinds) {
        let rows = group(name);
        let mut bytes = Vec::new();
        for case in &rows {
            assert!(kinds.contains(&case.kind), "{name}");
            write_case(&mut bytes, case);
        }
        assert_eq!(read_cases(&bytes).as_ref(), Ok(&rows), "{name}");
    }
    assert!(rows::group("others").is_none());
}
