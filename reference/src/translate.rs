//! The translation of a table to a key table.

use crate::answer::{Answer, ROOM};
use crate::keytable::{write_key_table, KeyAccessRecord, KeyDelegation, KeyTable};
use crate::limits;
use crate::names::Names;
use crate::table::{read_table, AccessRecord, Delegation, Table};

/// Translates a table to a key table.
///
/// "Outputs wanted, else Room: ... key table 16,384 bytes for the
/// translation."
pub fn translate(table: &[u8], out: &mut [u8]) -> Answer {
    let table = match read_table(table) {
        Ok(table) => table,
        Err(fault) => return fault.into(),
    };
    if out.len() < limits::KEY_TABLE_BYTES {
        return Answer::refused(ROOM);
    }
    let bytes = write_key_table(&replace_names(&table));
    // "a key table ... is written at the buffer's start and only on success;
    // later bytes stay." The longest has 14,085 bytes.
    for (lent, byte) in out.iter_mut().zip(&bytes) {
        *lent = *byte;
    }
    Answer::finished(bytes.len())
}

/// "The translation keeps record order, writes the keys meant, and omits a
/// record when any of its paths has no meaning."
pub fn replace_names(table: &Table) -> KeyTable {
    let names = Names::of(table);
    let access_records = table.access_records.iter();
    let delegations = table.delegations.iter();
    KeyTable {
        access_records: access_records
            .filter_map(|record| replace_in_access_record(&names, record))
            .collect(),
        delegations: delegations
            .filter_map(|delegation| replace_in_delegation(&names, delegation))
            .collect(),
    }
}

fn replace_in_access_record(names: &Names, record: &AccessRecord) -> Option<KeyAccessRecord> {
    Some(KeyAccessRecord {
        owner: names.self_key(record.owner)?,
        object: record.object,
        right: record.right,
        subject: names.path(record.owner, &record.path)?,
        depth: record.depth,
    })
}

fn replace_in_delegation(names: &Names, delegation: &Delegation) -> Option<KeyDelegation> {
    let writer = delegation.writer;
    Some(KeyDelegation {
        writer: names.self_key(writer)?,
        owner: names.path(writer, &delegation.owner_path)?,
        object: delegation.object,
        right: delegation.right,
        delegatee: names.path(writer, &delegation.delegatee_path)?,
        depth: delegation.depth,
    })
}
