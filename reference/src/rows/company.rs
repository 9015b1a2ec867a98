//! A company: two spaces that pass on what a third owns, and records that look
//! near but are about something else.

use super::checked;
use super::records::{access, binding, delegation, derivation_of, key, name, request_of, spaces};
use crate::cases::requests::write_request;
use crate::cases::tables::write_table;
use crate::cases::Case;
use crate::table::{AccessRecord, Delegation, Table, Target};

/// Space 0 owns, 1 and 2 pass on, 3 is another owner. Bindings 0 to 10; all
/// but number 5 mean a key.
pub fn company() -> Table {
    let bindings = vec![
        binding(0, 1, key(20)),
        // Space 1's names: of space 2, of the owner, of the other owner, of a
        // key that is nobody's space, of nothing.
        binding(1, 1, key(30)),
        binding(1, 2, name(0, &[])),
        binding(1, 3, name(3, &[])),
        binding(1, 4, key(99)),
        binding(1, 5, name(1, &[5])),
        // Space 2's names: of the end, of the owner; the other owner's of 1.
        binding(2, 1, key(50)),
        binding(2, 2, name(0, &[])),
        binding(3, 1, key(20)),
        // The owner's own name of the end; space 2's name of space 1.
        binding(0, 2, key(50)),
        binding(2, 3, name(1, &[])),
    ];
    Table {
        spaces: spaces(&[10, 20, 30, 40]),
        bindings,
        access_records: access_records(),
        delegations: delegations(),
    }
}

/// Every binding of the company that means a key.
pub const MEANT: [usize; 10] = [0, 1, 2, 3, 4, 6, 7, 8, 9, 10];

fn access_records() -> Vec<AccessRecord> {
    let good = access(0, &[1], 3);
    let other_object = AccessRecord {
        object: 8,
        ..good.clone()
    };
    let other_right = AccessRecord {
        right: 3,
        ..good.clone()
    };
    vec![
        good,
        other_object,
        other_right,
        access(3, &[1], 3),
        access(0, &[1], 0),
        access(0, &[1, 1], 15),
        access(0, &[], 15),
        access(0, &[1, 5], 3),
        access(0, &[3], 3),
    ]
}

fn delegations() -> Vec<Delegation> {
    let good = delegation(1, &[2], &[1], 2);
    let other_object = Delegation {
        object: 8,
        ..good.clone()
    };
    let other_right = Delegation {
        right: 3,
        ..good.clone()
    };
    vec![
        good,
        other_object,
        other_right,
        // Owner paths: another owner, a key without a space, no meaning, a
        // name that nobody bound, the writer itself.
        delegation(1, &[3], &[1], 2),
        delegation(1, &[4], &[1], 2),
        delegation(1, &[5], &[1], 2),
        delegation(1, &[9], &[1], 2),
        delegation(1, &[], &[1], 2),
        // A delegatee without a meaning.
        delegation(1, &[2], &[5], 2),
        // Space 2 passes on: to the end, back to space 1.
        delegation(2, &[2], &[1], 5),
        delegation(2, &[2], &[3], 9),
        // The owner itself; a delegation at 0; to a key without a space.
        delegation(0, &[], &[1], 7),
        delegation(1, &[2], &[1], 0),
        delegation(1, &[2], &[4], 15),
    ]
}

/// A derivation checked that lists these bindings of the company and has this
/// chain.
pub fn company_checked(subject: Target, bindings: &[usize], chain: &[usize]) -> Case {
    checked(
        &write_table(&company()),
        &write_request(&request_of(subject)),
        &derivation_of(bindings, chain),
    )
}
