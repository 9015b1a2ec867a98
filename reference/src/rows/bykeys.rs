//! Decisions over key tables.

use super::specimen::{P10, P9, T};
use super::{by_keys, numbers, stretched};
use crate::cases::Case;
use crate::limits::KEY_TABLE_BYTES;

/// The rows of key requests to key tables.
pub fn rows() -> Vec<Case> {
    let mut rows = to_the_specimen();
    rows.extend(refused());
    rows.extend(others_records());
    rows.extend(competing());
    rows.extend(ladders());
    rows.extend(each_other());
    rows.extend(many_keys());
    rows
}

/// P9's key table asked as T is in P2, P3, P5, P6 and P8, and otherwise.
fn to_the_specimen() -> Vec<Case> {
    let mut rows = Vec::new();
    for right in 1..=4 {
        for subject in [10, 20, 30, 40, 50] {
            rows.push(by_keys(&P9, &numbers(&[subject, 10, 7, right])));
        }
    }
    for (owner, object) in [(20, 7), (40, 7), (10, 8), (10, 0), (99, 7)] {
        rows.push(by_keys(&P9, &numbers(&[20, owner, object, 2])));
    }
    rows.push(by_keys(&P10, &numbers(&[20, 10, 7, 2])));
    rows
}

/// The key table's faults, then Request, then Denied.
fn refused() -> Vec<Case> {
    let good = numbers(&[20, 10, 7, 2]);
    let requests = [
        good.clone(),
        Vec::new(),
        good[..3].to_vec(),
        [&good[..], &[0]].concat(),
        stretched(&good, 64),
        stretched(&good, 65),
        numbers(&[0, 10, 7, 2]),
        numbers(&[20, 0, 7, 2]),
        numbers(&[20, 10, 65_536, 2]),
        numbers(&[20, 10, 7, 0]),
        numbers(&[20, 10, 7, 33]),
        // A request to a table is no key request.
        numbers(&[0, 20, 0, 7, 2]),
    ];
    let tables = [
        P9.to_vec(),
        P10.to_vec(),
        Vec::new(),
        P9[..18].to_vec(),
        [&P9[..], &[0]].concat(),
        [&[0x80, 0x00], &P9[1..]].concat(),
        [&P9[..18], &[16]].concat(),
        T.to_vec(),
    ];
    let mut rows = Vec::new();
    for table in &tables {
        rows.extend(requests.iter().map(|request| by_keys(table, request)));
    }
    let long = stretched(&P9, KEY_TABLE_BYTES + 1);
    rows.push(by_keys(&long, &good));
    rows.push(by_keys(&long, &[]));
    rows
}

/// The bytes of a key table: access records as owner, subject and depth,
/// delegations as writer, owner, delegatee and depth, all for object 7 and
/// right 2.
fn keyed(records: &[[u32; 3]], steps: &[[u32; 4]]) -> Vec<u8> {
    let mut values = vec![0, records.len() as u32];
    for &[owner, subject, depth] in records {
        values.extend([owner, 7, 2, subject, depth]);
    }
    values.push(steps.len() as u32);
    for &[writer, owner, delegatee, depth] in steps {
        values.extend([writer, owner, 7, 2, delegatee, depth]);
    }
    numbers(&values)
}

/// The key table asked for each of these subjects, with its records as they
/// stand and the other way round.
fn ask_both_ways(records: &[[u32; 3]], steps: &[[u32; 4]], subjects: &[u32]) -> Vec<Case> {
    let backward: (Vec<_>, Vec<_>) = (
        records.iter().rev().copied().collect(),
        steps.iter().rev().copied().collect(),
    );
    let mut rows = Vec::new();
    for table in [keyed(records, steps), keyed(&backward.0, &backward.1)] {
        for &subject in subjects {
            rows.push(by_keys(&table, &numbers(&[subject, 10, 7, 2])));
        }
    }
    rows
}

/// Records of another object, right, owner or writer.
fn others_records() -> Vec<Case> {
    let record = [10, 7, 2, 20, 5];
    let step = [20, 10, 7, 2, 40, 3];
    let request = numbers(&[40, 10, 7, 2]);
    let ask = |record: [u32; 5], step: [u32; 6]| {
        let values = [&[0, 1], &record[..], &[1], &step].concat();
        by_keys(&numbers(&values), &request)
    };
    let mut rows = vec![ask(record, step)];
    for place in 0..5 {
        let mut other = record;
        other[place] += 1;
        rows.push(ask(other, step));
    }
    for place in 0..6 {
        let mut other = step;
        other[place] += 1;
        rows.push(ask(record, other));
    }
    // The owner has no access unless listed, and what it writes counts then.
    rows.extend(ask_both_ways(&[], &[[10, 10, 20, 15]], &[10, 20]));
    rows.extend(ask_both_ways(
        &[[10, 10, 15]],
        &[[10, 10, 20, 15], [20, 20, 30, 15]],
        &[10, 20, 30],
    ));
    rows
}

/// Competing chains of different depth, the deeper one first or last.
fn competing() -> Vec<Case> {
    let subjects = [20, 30, 40];
    let mut rows = ask_both_ways(&[[10, 40, 1], [10, 40, 4]], &[], &subjects);
    rows.extend(ask_both_ways(
        &[[10, 40, 0], [10, 20, 5]],
        &[[20, 10, 40, 3]],
        &subjects,
    ));
    rows.extend(ask_both_ways(
        &[[10, 20, 3], [10, 30, 9]],
        &[[20, 10, 40, 15], [30, 10, 40, 6], [30, 10, 40, 7]],
        &subjects,
    ));
    rows.extend(ask_both_ways(
        &[[10, 20, 1], [10, 30, 15]],
        &[[20, 10, 40, 15], [30, 10, 20, 15]],
        &subjects,
    ));
    rows.extend(ask_both_ways(
        &[[10, 20, 15]],
        &[[20, 10, 40, 0], [20, 10, 40, 14], [20, 10, 40, 15]],
        &subjects,
    ));
    rows.extend(ask_both_ways(
        &[[10, 20, 0]],
        &[[20, 10, 40, 15]],
        &subjects,
    ));
    rows
}

/// Chains of 15, 16 and 17 records, through keys that are nobody's space.
fn ladders() -> Vec<Case> {
    let mut rows = Vec::new();
    for rungs in [14, 15, 16] {
        for start in [14, 15] {
            let key = |rung: u32| 100_000 + 1000 * rung;
            let steps: Vec<[u32; 4]> = (0..rungs)
                .map(|rung| [key(rung), 10, key(rung + 1), 15])
                .collect();
            let records = [[10, key(0), start]];
            let subjects = [key(rungs), key(rungs - 1), key(1)];
            rows.extend(ask_both_ways(&records, &steps, &subjects));
        }
    }
    rows
}

/// Two keys that delegate to each other, and one that does to itself.
fn each_other() -> Vec<Case> {
    let mut rows = Vec::new();
    for start in [0, 1, 2, 3, 15] {
        rows.extend(ask_both_ways(
            &[[10, 20, start]],
            &[
                [20, 10, 30, 15],
                [30, 10, 20, 15],
                [20, 10, 20, 15],
                [30, 10, 50, 1],
            ],
            &[20, 30, 50],
        ));
    }
    rows
}

/// As many keys as can play a part: each access record's subject, each
/// delegation's delegatee another one.
fn many_keys() -> Vec<Case> {
    let listed = |n: u32| 70_000 + n;
    let second = |n: u32| 80_000 + n;
    let third = |n: u32| 90_000 + n;
    let records: Vec<[u32; 3]> = (0..256).map(|n| [10, listed(n), n % 16]).collect();
    let mut steps: Vec<[u32; 4]> = (0..256).map(|n| [second(n), 10, third(n), n % 5]).collect();
    steps.extend((0..256).map(|n| [listed(n), 10, second(n), 15]));
    let subjects = [
        listed(0),
        listed(255),
        second(0),
        second(1),
        second(255),
        third(1),
        third(2),
        third(254),
        third(255),
    ];
    ask_both_ways(&records, &steps, &subjects)
}

#[cfg(test)]
mod tests {
    use super::*;
    use crate::line::answer_line;

    fn lines(rows: &[Case]) -> Vec<String> {
        rows.iter().map(answer_line).collect()
    }

    const DENIED: &str = "11 0 0 0";

    #[test]
    fn others_records_by_hand() {
        let lines = lines(&others_records());
        assert_eq!(lines[0], "0 0 3 0");
        // Of the access record and of the delegation only the depth may differ.
        assert_eq!(lines[1..5], [DENIED; 4]);
        assert_eq!(lines[5], "0 0 3 0");
        assert_eq!(lines[6..11], [DENIED; 5]);
        assert_eq!(lines[11], "0 0 4 0");
        assert_eq!(lines[12..16], [DENIED; 4]);
        let listed = ["0 0 15 0", "0 0 14 0", DENIED];
        assert_eq!(lines[16..], [listed, listed].concat());
    }

    #[test]
    fn competing_by_hand() {
        let lines = lines(&competing());
        // Key 40 is the third subject of each table.
        let depths = [4, 3, 7, 13, 14].map(|depth| format!("0 0 {depth} 0"));
        let depths = depths.iter().map(String::as_str).chain([DENIED]);
        for (both, expected) in lines.chunks(6).zip(depths) {
            assert_eq!([&both[2], &both[5]], [expected, expected]);
        }
        assert_eq!(lines.len(), 6 * 6);
    }

    #[test]
    fn ladders_by_hand() {
        let lines = lines(&ladders());
        let expected = [
            ["0 0 0 0", "0 0 1 0", "0 0 13 0"],
            ["0 0 1 0", "0 0 2 0", "0 0 14 0"],
            [DENIED, "0 0 0 0", "0 0 13 0"],
            ["0 0 0 0", "0 0 1 0", "0 0 14 0"],
            [DENIED, DENIED, "0 0 13 0"],
            [DENIED, "0 0 0 0", "0 0 14 0"],
        ];
        for (both, expected) in lines.chunks(6).zip(expected) {
            assert_eq!(both[..3], expected);
            assert_eq!(both[3..], expected);
        }
        assert_eq!(lines.len(), 6 * expected.len());
    }

    #[test]
    fn many_keys_by_hand() {
        let lines = lines(&many_keys());
        let expected = [
            "0 0 0 0", "0 0 15 0", DENIED, "0 0 0 0", "0 0 14 0", DENIED, "0 0 0 0", "0 0 4 0",
            "0 0 0 0",
        ];
        assert_eq!(lines[..9], expected);
        assert_eq!(lines[9..], expected);
    }
}
