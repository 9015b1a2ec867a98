//! The cases that are stored for the kernel's program are those made here.

mod common;

use std::fs;

use common::T;
use reference::cases::{make_case, read_cases, write_case, Kind};
use reference::line::answer_line;
use reference::rows;

/// A file that stands beside the kernel's program.
fn stored(name: &str) -> Vec<u8> {
    let path = format!("{}/../crates/vectors/{name}", env!("CARGO_MANIFEST_DIR"));
    fs::read(&path).unwrap_or_else(|error| panic!("{path}: {error}"))
}

#[test]
fn the_stored_cases_are_made_here() {
    let mut bytes = Vec::new();
    let by_keys = rows::of_kinds(
        rows::translating(),
        &[Kind::ReadKeyTable, Kind::DecideByKeys],
    );
    let translations = rows::of_kinds(rows::translating(), &[Kind::Translate]);
    let made = (0..80).map(|index| make_case(12, index, &[Kind::Translate]));
    for group in [
        rows::reading(),
        rows::names(),
        rows::checking(),
        by_keys,
        translations,
        made.collect(),
        rows::deciding_small(),
    ] {
        for case in &group {
            write_case(&mut bytes, case);
        }
    }
    assert!(stored("stdin") == bytes, "make crates/vectors/stdin again");
}

#[test]
fn the_stored_lines_are_their_answers() {
    let cases = read_cases(&stored("stdin")).expect("a case file");
    let lines: Vec<String> = cases.iter().map(answer_line).collect();
    let stored = String::from_utf8(stored("stdout")).expect("lines of text");
    assert!(
        stored.lines().eq(&lines),
        "make crates/vectors/stdout again"
    );
    assert!(stored.ends_with('\n'));
}

/// The rows that document 01 gives with their answers.
#[test]
fn the_rows_that_are_run_only() {
    let cases = rows::reading();
    let spaces = |count: usize| {
        let keys: Vec<u8> = (1..=count as u8).collect();
        [&[1, count as u8], &keys[..], &[0, 0, 0]].concat()
    };
    let depth = |depth: u8| vec![1, 2, 7, 8, 0, 1, 0, 7, 2, 0, depth, 0];
    let rows = [
        (Vec::new(), "2 0"),
        (T.to_vec(), "0 3 6 2 1"),
        ([&T[..], &[0]].concat(), "6 59"),
        (T[..58].to_vec(), "2 58"),
        (spaces(64), "0 64 0 0 0"),
        (spaces(65), "4 1"),
        (depth(15), "0 2 0 1 0"),
        (depth(16), "4 10"),
    ];
    for (table, line) in rows {
        let case = cases.iter().find(|case| case.parts == [table.clone()]);
        let case = case.unwrap_or_else(|| panic!("no row {table:?}"));
        assert_eq!(answer_line(case), line);
    }
}
