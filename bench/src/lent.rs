//! The buffers that callers lend.

use reference::limits;

pub fn sheet() -> Vec<u32> {
    vec![0; limits::SHEET_NUMBERS]
}

pub fn derivation() -> Vec<u8> {
    vec![0; limits::DERIVATION_BYTES]
}

pub fn key_table() -> Vec<u8> {
    vec![0; limits::KEY_TABLE_BYTES]
}
