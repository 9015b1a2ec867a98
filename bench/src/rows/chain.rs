//! The longest chain that there can be: an access record and 15 delegations.

use reference::table::{Key, Space};
use reference::{Request, Table};

use super::records::{access, binding, delegation, key, name, OBJECT, RIGHT};

/// The spaces that pass access on, after the owner, which is space 0.
const RUNGS: usize = 15;
/// What each space calls the next one, and what each rung calls the owner.
const NEXT: u32 = 300;
const OWNER: u32 = 301;
/// The key at the end: nobody's space.
const END: Key = Key(900_000);

fn key_of(space: usize) -> Key {
    if space > RUNGS {
        return END;
    }
    Key(100_000 + space as u32)
}

/// Each rung passes access on to the next one. The delegations stand last one
/// first, so that a round over them gives one step.
pub fn scene() -> (Table, Request) {
    let rungs = (1..=RUNGS).rev();
    let table = Table {
        spaces: (0..=RUNGS).map(key_of).collect(),
        bindings: (0..=RUNGS)
            .flat_map(|space| {
                [
                    binding(space, NEXT, key(key_of(space + 1))),
                    binding(space, OWNER, name(0, &[])),
                ]
            })
            .collect(),
        access_records: vec![access(0, (OBJECT, RIGHT), &[NEXT], 15)],
        delegations: rungs
            .map(|rung| delegation(rung, &[OWNER], (OBJECT, RIGHT), &[NEXT], 15))
            .collect(),
    };
    let request = Request {
        subject: key(END),
        owner: Space(0),
        object: OBJECT,
        right: RIGHT,
    };
    (table, request)
}
