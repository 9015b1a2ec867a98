//! The decision, with its name sheet and its derivation.

use crate::access::find_chain;
use crate::answer::{Answer, DENIED, OVERRUN, REQUEST, ROOM, UNNAMED};
use crate::derivation::{used_bindings, write_derivation, Derivation};
use crate::limits;
use crate::names::Names;
use crate::request::{read_request, Request};
use crate::table::{read_table, Table};

/// Decides a request.
///
/// "Order: the table faults ...; then Request, Room, Unnamed, Denied,
/// Overrun". "Numbers 1 to 9 touch no output."
pub fn decide(table: &[u8], request: &[u8], sheet: &mut [u32], derivation: &mut [u8]) -> Answer {
    let table = match read_table(table) {
        Ok(table) => table,
        Err(fault) => return fault.into(),
    };
    let Some(request) = read_request(&table, request) else {
        return Answer::refused(REQUEST);
    };
    // "Outputs wanted, else Room: sheet 256 numbers and derivation 512 bytes
    // for the decision".
    if sheet.len() < limits::SHEET_NUMBERS || derivation.len() < limits::DERIVATION_BYTES {
        return Answer::refused(ROOM);
    }
    let names = Names::of(&table);
    fill_sheet(&names, sheet);
    let (found, depth) = match find(&table, &names, &request) {
        Ok(found) => found,
        Err(refusal) => return refusal,
    };
    let bytes = write_derivation(&found);
    if bytes.len() > limits::DERIVATION_BYTES {
        return Answer::refused(OVERRUN);
    }
    // "A derivation ... is written at the buffer's start and only on success;
    // later bytes stay."
    for (lent, byte) in derivation.iter_mut().zip(&bytes) {
        *lent = *byte;
    }
    Answer::granted(depth, bytes.len())
}

/// "The decision fills the sheet's first entries, one per binding, on answers
/// 0, 10 ..., 11 and 13; sheet entries past these stay."
fn fill_sheet(names: &Names, sheet: &mut [u32]) {
    for (lent, key) in sheet.iter_mut().zip(names.sheet()) {
        *lent = key;
    }
}

/// A derivation of the greatest depth, with that depth, or the refusal.
pub fn find(table: &Table, names: &Names, request: &Request) -> Result<(Derivation, u32), Answer> {
    // "Unnamed: the subject's name has no meaning".
    let Some(subject) = names.target(&request.subject) else {
        return Err(Answer::refused(UNNAMED));
    };
    // "Denied: subject has a meaning, no access".
    let Some(chain) = find_chain(table, names, request, subject) else {
        return Err(Answer::refused(DENIED));
    };
    let bindings = used_bindings(
        table,
        names,
        request,
        chain.access_record,
        &chain.delegations,
    );
    let derivation = Derivation {
        bindings,
        access_record: chain.access_record,
        delegations: chain.delegations,
    };
    Ok((derivation, chain.depth))
}
