//! The comparison: what it lets pass and what it finds.

mod common;

use common::T;
use reference::cases::{kinds, make_case, read_cases, Case, Kind};
use reference::compare::compare;
use reference::line::{answer_line, hash_of, hex_of};

/// Differences between one case and this line.
fn differences(case: &Case, line: &str) -> u64 {
    compare(std::slice::from_ref(case), &format!("{line}\n")).different
}

/// A decision on table T for object 7 of owner space 0.
fn decision(subject: &[u8], right: u8) -> Case {
    let request = [subject, &[0, 7, right]].concat();
    Case {
        kind: Kind::Decide,
        parts: vec![T.to_vec(), request, vec![3; 1024], vec![9; 512]],
    }
}

/// A line of a grant of this case with another derivation.
fn line_with(case: &Case, derivation: &[u8]) -> String {
    let ours = answer_line(case);
    let fields: Vec<&str> = ours.split(' ').collect();
    let rest = hash_of(&case.parts[3][derivation.len()..]);
    let hex = hex_of(derivation);
    let (depth, sheet) = (fields[2], fields[4]);
    format!("0 0 {depth} {} {sheet} {rest} {hex}", derivation.len())
}

#[test]
fn our_own_answers_pass() {
    let cases: Vec<Case> = (0..800).map(|n| make_case(31, n, &kinds::ALL)).collect();
    let lines: String = cases.iter().map(|c| answer_line(c) + "\n").collect();
    let comparison = compare(&cases, &lines);
    assert_eq!(comparison.different, 0);
    let counted: u64 = comparison.counts.values().flat_map(|n| n.values()).sum();
    assert_eq!(counted, 800);
    assert_eq!(comparison.counts.len(), kinds::ALL.len());
}

#[test]
fn any_changed_number_is_found() {
    for index in 0..400 {
        let case = make_case(32, index, &kinds::ALL);
        let line = answer_line(&case);
        let fields: Vec<&str> = line.split(' ').collect();
        for at in 0..fields.len() {
            let mut changed: Vec<String> = fields.iter().map(|f| f.to_string()).collect();
            changed[at].push('0');
            assert_eq!(differences(&case, &changed.join(" ")), 1, "{line}");
            changed[at] = "1".to_string();
            if changed[at] != fields[at] {
                assert_eq!(differences(&case, &changed.join(" ")), 1, "{line}");
            }
        }
        for changed in [format!("{line} "), format!(" {line}"), line.to_uppercase()] {
            if changed != line {
                assert_eq!(differences(&case, &changed), 1, "{line}");
            }
        }
        assert_eq!(differences(&case, ""), 1);
        assert_eq!(differences(&case, "0 0 0 0 811c9dc5 811c9dc5 "), 1);
    }
}

#[test]
fn lines_too_few_or_too_many() {
    let cases = [decision(&[0, 20], 2), decision(&[0, 40], 2)];
    let first = answer_line(&cases[0]);
    let second = answer_line(&cases[1]);
    assert_eq!(
        compare(&cases, &format!("{first}\n{second}\n")).different,
        0
    );
    assert_eq!(compare(&cases, &format!("{first}\n")).different, 1);
    assert_eq!(compare(&cases, "").different, 2);
    let more = format!("{first}\n{second}\n{second}\n");
    assert_eq!(compare(&cases, &more).different, 1);
}

#[test]
fn another_good_derivation_passes() {
    // P3 with its bindings in other orders that hold.
    let case = decision(&[0, 40], 2);
    for good in [
        [4, 0, 1, 3, 5, 2, 0, 0],
        [4, 5, 3, 1, 0, 2, 0, 0],
        [4, 1, 0, 5, 3, 2, 0, 0],
    ] {
        assert_eq!(differences(&case, &line_with(&case, &good)), 0);
    }
}

#[test]
fn a_poor_derivation_is_found() {
    let case = decision(&[0, 20], 2);
    assert_eq!(differences(&case, &line_with(&case, &[1, 0, 1, 0])), 0);
    let poor: [&[u8]; 7] = [
        // A binding that nothing uses, alone or with one that uses it.
        &[2, 0, 1, 1, 0],
        &[3, 0, 1, 2, 1, 0],
        // A binding twice, one missing, one without meaning.
        &[2, 0, 0, 1, 0],
        &[0, 1, 0],
        &[2, 0, 4, 1, 0],
        // Another record, and nothing at all.
        &[1, 0, 1, 1],
        &[],
    ];
    for derivation in poor {
        let line = line_with(&case, derivation);
        assert_eq!(differences(&case, &line), 1, "{line}");
    }
    // The depth of another chain.
    let line = line_with(&case, &[1, 0, 1, 0]).replacen("0 0 1", "0 0 0", 1);
    assert_eq!(differences(&case, &line), 1);
    // A buffer changed after the derivation.
    let good = line_with(&case, &[1, 0, 1, 0]);
    let touched = good.replace(&hash_of(&[9; 508]), &hash_of(&[8; 508]));
    assert!(touched != good);
    assert_eq!(differences(&case, &touched), 1);
    // A refusal in place of a grant, and a grant in place of a refusal.
    assert_eq!(differences(&case, "11 0 0 0 0 0 -"), 1);
    let denied = decision(&[0, 10], 2);
    assert_eq!(differences(&denied, &line_with(&denied, &[1, 0, 1, 0])), 1);
}

#[test]
fn broken_case_files() {
    assert_eq!(read_cases(&[]), Ok(Vec::new()));
    assert!(read_cases(&[3, 0, 0, 0, 0]).is_ok());
    assert!(read_cases(&[3, 1, 0, 0, 0, 7]).is_ok());
    let broken: [&[u8]; 6] = [
        &[0],
        &[7, 0, 0, 0, 0],
        &[3, 0, 0, 0],
        &[3, 2, 0, 0, 0, 7],
        &[3, 0xFF, 0xFF, 0xFF, 0xFF],
        // A sheet of three bytes.
        &[10, 0, 0, 0, 0, 0, 0, 0, 0, 3, 0, 0, 0, 1, 1, 1, 0, 0, 0, 0],
    ];
    for bytes in broken {
        assert!(read_cases(bytes).is_err(), "{bytes:?}");
    }
}
