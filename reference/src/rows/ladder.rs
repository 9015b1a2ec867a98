//! A ladder: the owner, space 0, lists the first rung, and each rung passes
//! access on to the next one.

use super::records::{access, binding, delegation, derivation_of, key, name};
use crate::table::{Key, Table};

/// What each space calls the next one.
const NEXT: u32 = 1;
/// What each rung calls the owner.
const OWNER: u32 = 2;
/// The key at the end: nobody's space.
pub const END: u32 = 999;

/// The SELF key of a space of the ladder.
pub fn key_of(space: usize) -> u32 {
    10 * (space as u32 + 1)
}

/// So many rungs, the spaces after the owner. The owner lists the first one at
/// this depth; each rung delegates at the depth that is given for it.
pub fn ladder(rungs: usize, start: u32, depth: impl Fn(usize) -> u32) -> Table {
    let mut table = Table {
        spaces: (0..=rungs).map(|space| Key(key_of(space))).collect(),
        ..Table::default()
    };
    table.access_records = vec![access(0, &[NEXT], start)];
    for space in 0..=rungs {
        let next = if space < rungs {
            key(key_of(space + 1))
        } else {
            key(END)
        };
        table.bindings.push(binding(space, NEXT, next));
        if space > 0 {
            table.bindings.push(binding(space, OWNER, name(0, &[])));
            let step = delegation(space, &[OWNER], &[NEXT], depth(space));
            table.delegations.push(step);
        }
    }
    table
}

/// The derivation that goes up the whole ladder.
pub fn climb(rungs: usize) -> Vec<u8> {
    let bindings: Vec<usize> = (0..2 * rungs + 1).collect();
    let delegations: Vec<usize> = (0..rungs).collect();
    derivation_of(&bindings, &[&[0], &delegations[..]].concat())
}

/// The ladder with its records the other way round.
pub fn reversed(mut table: Table) -> Table {
    table.bindings.reverse();
    table.access_records.reverse();
    table.delegations.reverse();
    table
}
