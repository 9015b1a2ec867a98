//! The kernel, by its interface for C: see include/rustamgheb.h.

use reference::Answer;

/// An answer as the kernel lays it out.
#[repr(C)]
struct Record {
    number: u32,
    offset: u32,
    depth: u32,
    length: u32,
}

impl From<Record> for Answer {
    fn from(record: Record) -> Answer {
        Answer {
            number: record.number,
            offset: record.offset,
            depth: record.depth,
            length: record.length,
        }
    }
}

#[rustfmt::skip]
extern "C" {
    fn rustamgheb_decide(table: *const u8, table_len: usize, request: *const u8, request_len: usize,
                         sheet: *mut u32, sheet_len: usize, derivation: *mut u8, derivation_len: usize) -> Record;
    fn rustamgheb_check(table: *const u8, table_len: usize, request: *const u8, request_len: usize,
                        derivation: *const u8, derivation_len: usize) -> Record;
    fn rustamgheb_translate(table: *const u8, table_len: usize, key_table: *mut u8, key_table_len: usize) -> Record;
    fn rustamgheb_decide_by_keys(key_table: *const u8, key_table_len: usize,
                                 key_request: *const u8, key_request_len: usize) -> Record;
}

pub fn decide(table: &[u8], request: &[u8], sheet: &mut [u32], derivation: &mut [u8]) -> Answer {
    // Each pointer goes with its length, and the borrows last for the call.
    unsafe {
        rustamgheb_decide(
            table.as_ptr(),
            table.len(),
            request.as_ptr(),
            request.len(),
            sheet.as_mut_ptr(),
            sheet.len(),
            derivation.as_mut_ptr(),
            derivation.len(),
        )
    }
    .into()
}

pub fn check(table: &[u8], request: &[u8], derivation: &[u8]) -> Answer {
    // As above.
    unsafe {
        rustamgheb_check(
            table.as_ptr(),
            table.len(),
            request.as_ptr(),
            request.len(),
            derivation.as_ptr(),
            derivation.len(),
        )
    }
    .into()
}

pub fn translate(table: &[u8], key_table: &mut [u8]) -> Answer {
    // As above.
    unsafe {
        rustamgheb_translate(
            table.as_ptr(),
            table.len(),
            key_table.as_mut_ptr(),
            key_table.len(),
        )
    }
    .into()
}

pub fn decide_by_keys(key_table: &[u8], key_request: &[u8]) -> Answer {
    // As above.
    unsafe {
        rustamgheb_decide_by_keys(
            key_table.as_ptr(),
            key_table.len(),
            key_request.as_ptr(),
            key_request.len(),
        )
    }
    .into()
}

/// Reads a table and does nothing with it: where there is no room for a key
/// table, the translation answers so once the table is read.
pub fn read(table: &[u8]) -> Answer {
    translate(table, &mut [])
}
