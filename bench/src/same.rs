//! What kernel and reference answer before they are timed: the same.

use crate::rows::Row;
use crate::{kernel, lent};
use reference::answer::{GRANTED, ROOM};

/// What later steps of a row begin with.
pub struct Made {
    pub derivation: Vec<u8>,
    pub key_table: Vec<u8>,
}

/// Asks both all there is to ask of a row; panics where they differ.
pub fn ask(row: &Row) -> Made {
    let derivation = decide(row);
    let checked = kernel::check(&row.table, &row.request, &derivation);
    assert_eq!(checked.number, GRANTED, "{}: the checker", row.name);
    let other = reference::check(&row.table, &row.request, &derivation);
    assert_eq!(checked, other, "{}: the checker", row.name);

    let key_table = translate(row);
    let by_keys = kernel::decide_by_keys(&key_table, &row.key_request);
    assert_eq!(by_keys.number, GRANTED, "{}: the key decision", row.name);
    let other = reference::decide_by_keys(&key_table, &row.key_request);
    assert_eq!(by_keys, other, "{}: the key decision", row.name);

    let read = kernel::read(&row.table);
    assert_eq!(read.number, ROOM, "{}: reading", row.name);
    assert!(
        reference::read_table(&row.table).is_ok(),
        "{}: reading",
        row.name
    );
    Made {
        derivation,
        key_table,
    }
}

/// The kernel's derivation. The reference may hand out another one, of the
/// same depth.
fn decide(row: &Row) -> Vec<u8> {
    let (mut sheet, mut derivation) = (lent::sheet(), lent::derivation());
    let ours = kernel::decide(&row.table, &row.request, &mut sheet, &mut derivation);
    let (mut other_sheet, mut other_derivation) = (lent::sheet(), lent::derivation());
    let theirs = reference::decide(
        &row.table,
        &row.request,
        &mut other_sheet,
        &mut other_derivation,
    );
    assert_eq!(ours.number, GRANTED, "{}: the decision", row.name);
    assert_eq!(
        (ours.number, ours.offset, ours.depth),
        (theirs.number, theirs.offset, theirs.depth),
        "{}: the decision",
        row.name
    );
    assert_eq!(sheet, other_sheet, "{}: the name sheet", row.name);
    derivation.truncate(ours.length as usize);
    derivation
}

fn translate(row: &Row) -> Vec<u8> {
    let (mut ours, mut theirs) = (lent::key_table(), lent::key_table());
    let answer = kernel::translate(&row.table, &mut ours);
    let other = reference::translate(&row.table, &mut theirs);
    assert_eq!(answer.number, GRANTED, "{}: the translation", row.name);
    assert_eq!(
        (answer, &ours),
        (other, &theirs),
        "{}: the translation",
        row.name
    );
    ours.truncate(answer.length as usize);
    ours
}
