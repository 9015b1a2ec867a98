//! Table T with its requests and derivations; T whole, cut, changed, with a
//! byte more.

use super::{changes, stretched, table, truncations, wrong_forms};
use crate::cases::Case;
use crate::limits::TABLE_BYTES;

/// "Table T, 59 bytes".
pub const T: [u8; 59] = [
    0x01, 0x03, 0x0A, 0x14, 0x1E, 0x06, 0x00, 0x01, 0x00, 0x14, 0x01, 0x02, 0x01, 0x02, 0x00, 0x00,
    0x03, 0x01, 0x00, 0x02, 0x01, 0x02, 0x02, 0x04, 0x00, 0x28, 0x00, 0x05, 0x01, 0x00, 0x01, 0x05,
    0x01, 0x06, 0x00, 0x0A, 0x02, 0x00, 0x07, 0x02, 0x01, 0x01, 0x01, 0x00, 0x07, 0x03, 0x01, 0x03,
    0x00, 0x01, 0x01, 0x01, 0x06, 0x07, 0x02, 0x02, 0x02, 0x04, 0x03,
];

/// "`01 00 00 00 00` is a good table".
pub const EMPTY: [u8; 5] = [0x01, 0x00, 0x00, 0x00, 0x00];

/// P2's request: key 20 for right 2 on object 7 of space 0.
pub const BY_KEY_20: [u8; 5] = [0x00, 0x14, 0x00, 0x07, 0x02];
/// P3's request: key 40 for right 2.
pub const BY_KEY_40: [u8; 5] = [0x00, 0x28, 0x00, 0x07, 0x02];
/// P6's request: path 3 in space 0 for right 3.
pub const BY_NAME_3: [u8; 7] = [0x01, 0x00, 0x01, 0x03, 0x00, 0x07, 0x03];

/// P2's derivation.
pub const P2: [u8; 4] = [0x01, 0x00, 0x01, 0x00];
/// P3's derivation.
pub const P3: [u8; 8] = [0x04, 0x00, 0x01, 0x03, 0x05, 0x02, 0x00, 0x00];
/// P4: "The same without binding 5".
pub const P4: [u8; 7] = [0x03, 0x00, 0x01, 0x03, 0x02, 0x00, 0x00];

/// P9: "Key table, 19 bytes".
pub const P9: [u8; 19] = [
    0x00, 0x02, 0x0A, 0x07, 0x02, 0x14, 0x01, 0x0A, 0x07, 0x03, 0x1E, 0x00, 0x01, 0x14, 0x0A, 0x07,
    0x02, 0x28, 0x03,
];

/// P10: "its key table is `00 00 00`".
pub const P10: [u8; 3] = [0x00, 0x00, 0x00];

/// T and the empty table with what can befall them: "no bytes at all", "T with
/// one byte more", "T less its last byte" and all the rest of that kind.
pub fn tables() -> Vec<Case> {
    let mut rows = vec![T.to_vec(), EMPTY.to_vec(), Vec::new()];
    for byte in [0x00, 0x80, 0xFF] {
        rows.push([&T[..], &[byte]].concat());
        rows.push([&EMPTY[..], &[byte]].concat());
    }
    // Each number of T has one byte.
    let values = T.map(u32::from);
    rows.extend(truncations(&T));
    rows.extend(changes(&T));
    rows.extend(wrong_forms(&values));
    rows.into_iter().map(table).collect()
}

/// T with each fault that a table can have: Long, Cut twice, Number, Range,
/// Twice, Extra and Version.
pub fn faulty() -> Vec<Vec<u8>> {
    let mut twice = T;
    // Binding 2 is of the base name of binding 0.
    twice[16] = 1;
    vec![
        stretched(&T, TABLE_BYTES + 1),
        Vec::new(),
        T[..58].to_vec(),
        [&[0x81, 0x00], &T[1..]].concat(),
        [&T[..58], &[16]].concat(),
        twice.to_vec(),
        [&T[..], &[0]].concat(),
        [&[2], &T[1..]].concat(),
    ]
}
