//! Rows: the cases that document 01 names, and its limits at their edges.

mod bykeys;
mod checking;
mod company;
mod deciding;
mod derivations;
mod full;
mod keytables;
mod ladder;
mod names;
mod records;
mod requests;
mod specimen;
mod tables;
mod translating;

use crate::cases::{Case, Kind};
use crate::limits::{DERIVATION_BYTES, KEY_TABLE_BYTES, SHEET_NUMBERS};
use crate::number::write_number;

/// The rows of a group, by its name.
pub fn group(name: &str) -> Option<Vec<Case>> {
    match name {
        "reading" => Some(reading()),
        "names" => Some(names()),
        "checking" => Some(checking()),
        "deciding" => Some(deciding()),
        "deciding-small" => Some(deciding_small()),
        "translating" => Some(translating()),
        _ => None,
    }
}

/// The rows that are of these kinds.
pub fn of_kinds(rows: Vec<Case>, kinds: &[Kind]) -> Vec<Case> {
    let mut rows = rows;
    rows.retain(|case| kinds.contains(&case.kind));
    rows
}

/// Names: every row of name sheets.
pub fn names() -> Vec<Case> {
    names::rows()
}

/// Checking: every row of derivations that are checked.
pub fn checking() -> Vec<Case> {
    checking::rows()
}

/// Deciding: every row of decisions.
pub fn deciding() -> Vec<Case> {
    deciding::rows()
}

/// Deciding over small tables: all of them but those of full size, where many
/// derivations have the greatest depth.
pub fn deciding_small() -> Vec<Case> {
    deciding::small_rows()
}

/// Translating: every row of key tables, of translations and of decisions over
/// key tables.
pub fn translating() -> Vec<Case> {
    let mut rows = keytables::rows();
    rows.extend(translating::rows());
    rows.extend(bykeys::rows());
    rows
}

/// Reading: every row of tables, requests, key requests and derivations.
pub fn reading() -> Vec<Case> {
    let mut rows = Vec::new();
    rows.extend(specimen::tables());
    rows.extend(tables::rows());
    rows.extend(requests::rows());
    rows.extend(derivations::rows());
    rows
}

fn table(bytes: Vec<u8>) -> Case {
    case(Kind::ReadTable, vec![bytes])
}

fn request(table: &[u8], bytes: Vec<u8>) -> Case {
    case(Kind::ReadRequest, vec![table.to_vec(), bytes])
}

fn derivation(bytes: Vec<u8>) -> Case {
    case(Kind::ReadDerivation, vec![bytes])
}

fn key_request(bytes: Vec<u8>) -> Case {
    case(Kind::ReadKeyRequest, vec![bytes])
}

fn key_table(bytes: Vec<u8>) -> Case {
    case(Kind::ReadKeyTable, vec![bytes])
}

fn sheet(table: Vec<u8>) -> Case {
    case(Kind::NameSheet, vec![table])
}

fn checked(table: &[u8], request: &[u8], derivation: &[u8]) -> Case {
    let parts = [table, request, derivation];
    case(Kind::Check, parts.map(<[u8]>::to_vec).to_vec())
}

/// What stands in each byte of a lent buffer before the call.
const BEFORE: u8 = 0xA5;

/// A decision with a sheet of so many numbers and a derivation of so many
/// bytes.
fn decided_in(table: &[u8], request: &[u8], sheet: usize, derivation: usize) -> Case {
    let sheet = vec![BEFORE; 4 * sheet];
    let derivation = vec![BEFORE; derivation];
    let parts = vec![table.to_vec(), request.to_vec(), sheet, derivation];
    case(Kind::Decide, parts)
}

/// A decision with buffers just large enough.
fn decided(table: &[u8], request: &[u8]) -> Case {
    decided_in(table, request, SHEET_NUMBERS, DERIVATION_BYTES)
}

/// A translation into a buffer of so many bytes.
fn translated_in(table: &[u8], room: usize) -> Case {
    case(Kind::Translate, vec![table.to_vec(), vec![BEFORE; room]])
}

/// A translation into a buffer just large enough.
fn translated(table: &[u8]) -> Case {
    translated_in(table, KEY_TABLE_BYTES)
}

fn by_keys(key_table: &[u8], request: &[u8]) -> Case {
    let parts = vec![key_table.to_vec(), request.to_vec()];
    case(Kind::DecideByKeys, parts)
}

fn case(kind: Kind, parts: Vec<Vec<u8>>) -> Case {
    Case { kind, parts }
}

/// The bytes of these numbers, each in its shortest form.
fn numbers(values: &[u32]) -> Vec<u8> {
    let mut out = Vec::new();
    for &value in values {
        write_number(&mut out, value);
    }
    out
}

/// A row for each value: all but the number that is tried.
fn each(values: &[u32], row: impl Fn(u32) -> Vec<u32>) -> Vec<Vec<u8>> {
    values.iter().map(|&value| numbers(&row(value))).collect()
}

/// The bytes with spare ones up to this length.
fn stretched(bytes: &[u8], length: usize) -> Vec<u8> {
    let mut bytes = bytes.to_vec();
    bytes.resize(length, 0);
    bytes
}

/// Every beginning of the bytes that is shorter than they are.
fn truncations(bytes: &[u8]) -> Vec<Vec<u8>> {
    let lengths = 0..bytes.len();
    lengths.map(|length| bytes[..length].to_vec()).collect()
}

/// The bytes with one of them changed, to each of 00, 7F, 80 and FF.
fn changes(bytes: &[u8]) -> Vec<Vec<u8>> {
    let mut changed = Vec::new();
    for place in 0..bytes.len() {
        for byte in [0x00, 0x7F, 0x80, 0xFF] {
            let mut bytes = bytes.to_vec();
            bytes[place] = byte;
            changed.push(bytes);
        }
    }
    changed
}

/// The bytes with one of them changed, by one more and by one less.
fn neighbours(bytes: &[u8]) -> Vec<Vec<u8>> {
    let mut changed = Vec::new();
    for place in 0..bytes.len() {
        for step in [1, 0xFF] {
            let mut bytes = bytes.to_vec();
            bytes[place] = bytes[place].wrapping_add(step);
            changed.push(bytes);
        }
    }
    changed
}

/// The greatest number.
const MOST: u32 = u32::MAX;

/// A number that is not in its shortest form.
fn not_shortest(value: u32) -> Vec<u8> {
    let mut form = numbers(&[value]);
    if let Some(last) = form.last_mut() {
        *last |= 0x80;
    }
    form.push(0x00);
    form
}

/// A number just too large: 4,294,967,296.
const TOO_LARGE: [u8; 5] = [0x80, 0x80, 0x80, 0x80, 0x10];
/// "`FF FF FF FF 10` is wrong."
const FAR_TOO_LARGE: [u8; 5] = [0xFF, 0xFF, 0xFF, 0xFF, 0x10];
/// Five set top bits.
const ENDLESS: [u8; 5] = [0xFF; 5];

/// The bytes of these numbers with one of them in each wrong form.
fn wrong_forms(values: &[u32]) -> Vec<Vec<u8>> {
    let mut rows = Vec::new();
    for (place, &value) in values.iter().enumerate() {
        let before = numbers(&values[..place]);
        let after = numbers(&values[place + 1..]);
        let long_form = not_shortest(value);
        let forms: [&[u8]; 4] = [&long_form, &TOO_LARGE, &FAR_TOO_LARGE, &ENDLESS];
        for form in forms {
            rows.push([&before, form, &after].concat());
        }
    }
    rows
}
