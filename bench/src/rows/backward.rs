//! The worst order of bindings for filling a name sheet round by round: each
//! of 256 bindings leads to the next one, so that a round that goes through
//! them in table order fills one.

use reference::table::{Key, Space};
use reference::{Request, Table};

use super::records::{access, binding, key, name, OBJECT, RIGHT};

const SPACES: usize = 64;
const BINDINGS: usize = 256;
/// The key at the end: nobody's space.
const END: Key = Key(900_000);

/// The space and the base name of a binding: they are dealt out to the spaces
/// in turn.
fn place(binding: usize) -> (usize, u32) {
    (binding % SPACES, 300 + (binding / SPACES) as u32)
}

/// The owner's one access record is for the name with which the chain begins,
/// so that a derivation needs every binding.
pub fn scene() -> (Table, Request) {
    let (owner, first) = place(0);
    let table = Table {
        spaces: (0..SPACES as u32)
            .map(|space| Key(100_000 + space))
            .collect(),
        bindings: (0..BINDINGS)
            .map(|number| {
                let (space, base_name) = place(number);
                let (next_space, next_name) = place(number + 1);
                let target = if number + 1 < BINDINGS {
                    name(next_space, &[next_name])
                } else {
                    key(END)
                };
                binding(space, base_name, target)
            })
            .collect(),
        access_records: vec![access(owner, (OBJECT, RIGHT), &[first], 0)],
        delegations: Vec::new(),
    };
    let request = Request {
        subject: key(END),
        owner: Space(owner),
        object: OBJECT,
        right: RIGHT,
    };
    (table, request)
}
