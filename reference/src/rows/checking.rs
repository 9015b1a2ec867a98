//! Derivations checked.

use super::company::{company, company_checked, MEANT};
use super::ladder::{climb, key_of, ladder, END};
use super::records::{derivation_of, key, name, request_of};
use super::specimen::{faulty, BY_KEY_20, BY_KEY_40, BY_NAME_3, EMPTY, P2, P3, P4, T};
use super::{changes, checked, neighbours, numbers, stretched, truncations, wrong_forms};
use crate::cases::requests::write_request;
use crate::cases::tables::write_table;
use crate::cases::Case;
use crate::limits::DERIVATION_BYTES;

/// The rows of derivations that are checked.
pub fn rows() -> Vec<Case> {
    let mut rows = of_the_specimen();
    rows.extend(damaged());
    rows.extend(listings());
    rows.extend(numbers_past_the_table());
    rows.extend(orders());
    rows.extend(records_of_others());
    rows.extend(chains());
    rows.extend(subjects());
    rows.extend(ladders());
    rows
}

/// P2, P3 and P4.
fn of_the_specimen() -> Vec<Case> {
    vec![
        checked(&T, &BY_KEY_20, &P2),
        checked(&T, &BY_KEY_40, &P3),
        checked(&T, &BY_KEY_40, &P4),
    ]
}

/// What can befall the bytes of P3's derivation, and of P2's.
fn damaged() -> Vec<Case> {
    let mut rows = Vec::new();
    let specimens: [(&[u8], &[u8]); 2] = [(&BY_KEY_40, &P3), (&BY_KEY_20, &P2)];
    for (request, good) in specimens {
        let values: Vec<u32> = good.iter().copied().map(u32::from).collect();
        let mut damaged = truncations(good);
        damaged.extend(changes(good));
        damaged.extend(neighbours(good));
        damaged.extend(wrong_forms(&values));
        for byte in [0x00, 0x80, 0xFF] {
            damaged.push([good, &[byte]].concat());
        }
        damaged.push(stretched(good, DERIVATION_BYTES));
        damaged.push(stretched(good, DERIVATION_BYTES + 1));
        rows.extend(damaged.iter().map(|bytes| checked(&T, request, bytes)));
    }
    rows
}

/// Bindings of T listed for P6's request.
const FOR_NAME_3: [&[usize]; 17] = [
    // Binding 2 gets its meaning from 0 and 1.
    &[0, 1, 2],
    &[1, 0, 2],
    &[0, 2, 1],
    &[1, 2, 0],
    &[2, 0, 1],
    &[2, 1, 0],
    // One missing.
    &[0, 1],
    &[0, 2],
    &[1, 2],
    &[],
    // One twice.
    &[0, 1, 2, 0],
    &[0, 0, 1, 2],
    &[0, 1, 2, 2],
    // Idle ones; the last means nothing.
    &[0, 1, 2, 3],
    &[5, 3, 0, 1, 2],
    &[0, 1, 2, 4],
    &[4, 0, 1, 2],
];

/// Bindings of T listed for P3's request.
const FOR_KEY_40: [&[usize]; 12] = [
    &[5, 3, 1, 0],
    &[3, 0, 5, 1],
    &[0, 1, 3],
    &[0, 1, 5],
    &[0, 3, 5],
    &[1, 3, 5],
    &[0, 1, 3, 5, 5],
    &[0, 1, 3, 5, 2],
    &[0, 1, 2, 3, 5],
    &[2, 0, 1, 3, 5],
    &[0, 1, 3, 5, 4],
    &[],
];

/// The listed bindings of T: in each order, one missing, one twice, idle ones.
fn listings() -> Vec<Case> {
    let mut rows = Vec::new();
    for listed in FOR_NAME_3 {
        rows.push(checked(&T, &BY_NAME_3, &derivation_of(listed, &[1])));
    }
    for listed in FOR_KEY_40 {
        rows.push(checked(&T, &BY_KEY_40, &derivation_of(listed, &[0, 0])));
    }
    // P2's with each idle binding, and with none.
    for idle in 1..6 {
        let listed = derivation_of(&[0, idle], &[0]);
        rows.push(checked(&T, &BY_KEY_20, &listed));
    }
    rows.push(checked(&T, &BY_KEY_20, &derivation_of(&[], &[0])));
    rows
}

/// Good forms whose numbers T has no record for, and the last it has.
fn numbers_past_the_table() -> Vec<Case> {
    let rows: [(&[usize], &[usize]); 8] = [
        (&[0, 5], &[0]),
        (&[0, 6], &[0]),
        (&[0, 255], &[0]),
        (&[0], &[2]),
        (&[0], &[255]),
        (&[0, 1, 3, 5], &[0, 1]),
        (&[0, 1, 3, 5], &[0, 511]),
        (&[0, 1, 3, 5], &[1, 0]),
    ];
    let mut cases = Vec::new();
    for (bindings, chain) in rows {
        let bytes = derivation_of(bindings, chain);
        cases.push(checked(&T, &BY_KEY_20, &bytes));
        cases.push(checked(&T, &BY_KEY_40, &bytes));
    }
    cases
}

/// The table's faults, then Request, then 12.
fn orders() -> Vec<Case> {
    let mut rows = Vec::new();
    let derivations = [P2.to_vec(), Vec::new(), vec![0xFF; 513]];
    let requests = [BY_KEY_20.to_vec(), Vec::new(), numbers(&[0, 20, 3, 7, 2])];
    for derivation in &derivations {
        for request in &requests {
            rows.push(checked(&T, request, derivation));
            rows.push(checked(&T[..58], request, derivation));
            rows.push(checked(&EMPTY, request, derivation));
        }
    }
    for table in faulty() {
        rows.push(checked(&table, &BY_KEY_20, &P2));
        rows.push(checked(&table, &[], &[]));
    }
    rows
}

/// Access records and delegations of another object, right or owner.
fn records_of_others() -> Vec<Case> {
    let mut rows = Vec::new();
    for record in 0..9 {
        rows.push(company_checked(key(20), &MEANT, &[record]));
    }
    for record in 0..14 {
        rows.push(company_checked(key(30), &MEANT, &[0, record]));
        rows.push(company_checked(key(20), &MEANT, &[6, record]));
    }
    // The other object, the other right, the other owner, asked for.
    for (owner, object, right) in [(0, 8, 2), (0, 7, 3), (3, 7, 2)] {
        let request = numbers(&[0, 30, owner, object, right]);
        for chain in [[0, 0], [1, 1], [2, 2], [3, 3], [3, 0], [0, 3]] {
            let bytes = derivation_of(&MEANT, &chain);
            rows.push(checked(&write_table(&company()), &request, &bytes));
        }
    }
    rows
}

/// Subjects and chains of the company.
const CHAINS: [(u32, &[usize]); 24] = [
    (30, &[0, 0]),
    (50, &[0, 0, 9]),
    (50, &[0, 12, 9]),
    (30, &[0, 12]),
    (30, &[4, 0]),
    (30, &[4, 12]),
    (20, &[4]),
    // Round by space 1 and 2: each time one less.
    (20, &[0, 0, 10]),
    (30, &[0, 0, 10, 0]),
    (50, &[0, 0, 10, 0, 9]),
    (20, &[0, 0, 10, 0, 10]),
    // Another's delegation, out of its turn.
    (50, &[0, 9]),
    (50, &[0, 9, 0]),
    (30, &[0, 0, 0]),
    (30, &[0, 11]),
    // By a path of two names, and the owner's own record.
    (30, &[5]),
    (50, &[5, 9]),
    (20, &[5, 10]),
    (10, &[6]),
    (20, &[6, 11]),
    (30, &[6, 11, 0]),
    // To a key without a space, which passes nothing on.
    (99, &[0, 13]),
    (99, &[6, 11, 13]),
    (50, &[0, 13, 9]),
];

/// Chains that follow the rules and chains that do not: depths that run out,
/// writers that are not who has access, the same writer twice.
fn chains() -> Vec<Case> {
    let mut cases = Vec::new();
    for (subject, chain) in CHAINS {
        cases.push(company_checked(key(subject), &MEANT, chain));
        // The last name means another key.
        cases.push(company_checked(key(subject + 1), &MEANT, chain));
    }
    // The delegation's paths need their bindings, though others name the same.
    for left_out in 0..MEANT.len() {
        let mut listed = MEANT.to_vec();
        listed.remove(left_out);
        cases.push(company_checked(key(50), &listed, &[0, 0, 9]));
    }
    cases
}

/// Subjects that get their meaning from the listed bindings, or do not.
fn subjects() -> Vec<Case> {
    let used = [0, 1, 2, 6, 7];
    let with_9 = [0, 1, 2, 6, 7, 9];
    vec![
        company_checked(name(0, &[2]), &with_9, &[0, 0, 9]),
        company_checked(name(0, &[2]), &used, &[0, 0, 9]),
        company_checked(name(0, &[1, 1, 1]), &used, &[0, 0, 9]),
        company_checked(name(2, &[1]), &used, &[0, 0, 9]),
        company_checked(name(3, &[1]), &used, &[0, 0, 9]),
        // A subject without any meaning.
        company_checked(name(1, &[5]), &MEANT, &[0, 0, 9]),
        company_checked(name(0, &[7]), &MEANT, &[0, 0, 9]),
        company_checked(name(0, &[2, 1]), &MEANT, &[0, 0, 9]),
        // The empty path needs no binding.
        company_checked(name(2, &[]), &[0, 1, 2], &[0, 0]),
        company_checked(name(1, &[]), &[0], &[0]),
        company_checked(name(0, &[]), &[], &[6]),
        company_checked(name(0, &[1]), &[0], &[0]),
    ]
}

/// Chains of up to 17 records.
fn ladders() -> Vec<Case> {
    let mut rows = Vec::new();
    for rungs in [1, 2, 14, 15, 16] {
        let last = write_request(&request_of(key(END)));
        for start in [14, 15] {
            let table = write_table(&ladder(rungs, start, |_| 15));
            rows.push(checked(&table, &last, &climb(rungs)));
        }
        // Each rung delegates just as deep as is needed, and one rung less.
        let needed = move |space: usize| (rungs - space).min(15) as u32;
        let table = write_table(&ladder(rungs, 15, needed));
        rows.push(checked(&table, &last, &climb(rungs)));
        let short = move |space: usize| needed(space).saturating_sub((space == 1) as u32);
        let table = write_table(&ladder(rungs, 15, short));
        rows.push(checked(&table, &last, &climb(rungs)));
        // One rung before the end.
        let before = write_request(&request_of(key(key_of(rungs))));
        rows.push(checked(&table, &before, &climb(rungs)));
    }
    rows
}

#[cfg(test)]
mod tests {
    use super::*;
    use crate::line::answer_line;

    /// The depth that a chain of the company gives this subject, or nothing.
    fn depth(subject: u32, chain: &[usize]) -> Option<u32> {
        let line = answer_line(&company_checked(key(subject), &MEANT, chain));
        let fields: Vec<u32> = line.split(' ').filter_map(|n| n.parse().ok()).collect();
        match fields[..] {
            [0, 0, depth, 0] => Some(depth),
            [12, 0, 0, 0] => None,
            _ => panic!("{line}"),
        }
    }

    #[test]
    fn depths_by_hand() {
        let rows: [(u32, &[usize], Option<u32>); 17] = [
            (20, &[0], Some(3)),
            (30, &[0, 0], Some(2)),
            (50, &[0, 0, 9], Some(1)),
            (30, &[0, 12], Some(0)),
            (50, &[0, 12, 9], None),
            (20, &[4], Some(0)),
            (30, &[4, 0], None),
            (20, &[0, 0, 10], Some(1)),
            (30, &[0, 0, 10, 0], Some(0)),
            (50, &[0, 0, 10, 0, 9], None),
            (50, &[0, 9], None),
            (30, &[5], Some(15)),
            (50, &[5, 9], Some(5)),
            (20, &[6, 11], Some(7)),
            (30, &[6, 11, 0], Some(2)),
            (99, &[0, 13], Some(2)),
            (50, &[0, 13, 9], None),
        ];
        for (subject, chain, expected) in rows {
            assert_eq!(depth(subject, chain), expected, "{subject} {chain:?}");
        }
        for record in [1, 2, 3, 5, 6, 7, 8] {
            assert_eq!(depth(20, &[record]), None, "{record}");
        }
        for record in 1..=11 {
            assert_eq!(depth(30, &[0, record]), None, "{record}");
        }
    }

    #[test]
    fn subjects_by_hand() {
        let lines: Vec<String> = subjects().iter().map(answer_line).collect();
        let (no, by_2) = ("12 0 0 0", "0 0 1 0");
        let expected = [
            by_2, no, by_2, by_2, no, no, no, no, "0 0 2 0", "0 0 3 0", "0 0 15 0", "0 0 3 0",
        ];
        assert_eq!(lines, expected);
    }

    /// Binding 2 of T gets its meaning from 0 and 1; idle ones do no harm if
    /// they have a meaning.
    #[test]
    fn listings_by_hand() {
        let lines: Vec<String> = listings().iter().map(answer_line).collect();
        let (no, yes, deep) = ("12 0 0 0", "0 0 0 0", "0 0 1 0");
        let of_name_3 = [
            yes, yes, no, no, no, no, no, no, no, no, no, no, no, yes, yes, no, no,
        ];
        let of_key_40 = [yes, yes, no, no, no, no, no, yes, yes, no, no, no];
        let of_key_20 = [deep, no, deep, no, deep, no];
        assert_eq!(lines[..17], of_name_3);
        assert_eq!(lines[17..29], of_key_40);
        assert_eq!(lines[29..], of_key_20);
    }

    /// A chain has at most 16 records, and 15 is the greatest depth.
    #[test]
    fn ladders_by_hand() {
        let lines: Vec<String> = ladders().iter().map(answer_line).collect();
        let (no, at_0) = ("12 0 0 0", "0 0 0 0");
        let expected = [
            ["0 0 13 0", "0 0 14 0", at_0, at_0, no],
            ["0 0 12 0", "0 0 13 0", at_0, no, no],
            [at_0, "0 0 1 0", at_0, no, no],
            [no, at_0, at_0, no, no],
            [no, no, no, no, no],
        ];
        assert_eq!(lines, expected.concat());
    }
}
