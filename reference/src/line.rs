//! Answer lines: what is said about each case, one line a case.

use crate::answer::{Answer, Fault, GRANTED, NOT_A_DERIVATION, REQUEST};
use crate::cases::{Case, Kind};
use crate::names::Names;
use crate::{check, decide, decide_by_keys, translate};
use crate::{read_derivation, read_key_request, read_key_table, read_request, read_table};

/// The answer line of a case, without its end.
pub fn answer_line(case: &Case) -> String {
    let part = |nth: usize| case.parts.get(nth).map_or(&[][..], |part| &part[..]);
    match case.kind {
        Kind::ReadTable => line_of_table(part(0)),
        Kind::ReadRequest => line_of_request(part(0), part(1)),
        Kind::ReadDerivation => line_of_derivation(part(0)),
        Kind::ReadKeyTable => line_of_key_table(part(0)),
        Kind::ReadKeyRequest => line_of_key_request(part(0)),
        Kind::NameSheet => line_of_sheet(part(0)),
        Kind::Decide => line_of_decision(part(0), part(1), part(2), part(3)),
        Kind::Check => line_of_answer(check(part(0), part(1), part(2))),
        Kind::Translate => line_of_translation(part(0), part(1)),
        Kind::DecideByKeys => line_of_answer(decide_by_keys(part(0), part(1))),
    }
}

fn line_of_answer(answer: Answer) -> String {
    let Answer {
        number,
        offset,
        depth,
        length,
    } = answer;
    format!("{number} {offset} {depth} {length}")
}

fn line_of_fault(fault: Fault) -> String {
    format!("{} {}", fault.number, fault.offset)
}

fn line_of_table(bytes: &[u8]) -> String {
    match read_table(bytes) {
        Ok(table) => format!(
            "{GRANTED} {} {} {} {}",
            table.spaces.len(),
            table.bindings.len(),
            table.access_records.len(),
            table.delegations.len()
        ),
        Err(fault) => line_of_fault(fault),
    }
}

fn line_of_request(table: &[u8], request: &[u8]) -> String {
    let table = match read_table(table) {
        Ok(table) => table,
        Err(fault) => return line_of_fault(fault),
    };
    match read_request(&table, request) {
        Some(_) => GRANTED.to_string(),
        None => REQUEST.to_string(),
    }
}

fn line_of_derivation(bytes: &[u8]) -> String {
    match read_derivation(bytes) {
        Some(derivation) => format!(
            "{GRANTED} {} {}",
            derivation.bindings.len(),
            derivation.delegations.len() + 1
        ),
        None => NOT_A_DERIVATION.to_string(),
    }
}

fn line_of_key_table(bytes: &[u8]) -> String {
    match read_key_table(bytes) {
        Ok(table) => format!(
            "{GRANTED} {} {}",
            table.access_records.len(),
            table.delegations.len()
        ),
        Err(fault) => line_of_fault(fault),
    }
}

fn line_of_key_request(bytes: &[u8]) -> String {
    match read_key_request(bytes) {
        Some(_) => GRANTED.to_string(),
        None => REQUEST.to_string(),
    }
}

/// "one per binding: the key its target means, or 0."
fn line_of_sheet(bytes: &[u8]) -> String {
    let table = match read_table(bytes) {
        Ok(table) => table,
        Err(fault) => return line_of_fault(fault),
    };
    let mut line = GRANTED.to_string();
    for entry in Names::of(&table).sheet() {
        line.push_str(&format!(" {entry}"));
    }
    line
}

fn line_of_decision(table: &[u8], request: &[u8], sheet: &[u8], derivation: &[u8]) -> String {
    let mut sheet = numbers_of(sheet);
    let mut derivation = derivation.to_vec();
    let answer = decide(table, request, &mut sheet, &mut derivation);
    let written = if answer.number == GRANTED {
        answer.length as usize
    } else {
        0
    };
    let (written, rest) = derivation.split_at(written.min(derivation.len()));
    let hex = if answer.number == GRANTED {
        hex_of(written)
    } else {
        "-".to_string()
    };
    format!(
        "{} {} {} {hex}",
        line_of_answer(answer),
        hash_of_numbers(&sheet),
        hash_of(rest)
    )
}

fn line_of_translation(table: &[u8], buffer: &[u8]) -> String {
    let mut buffer = buffer.to_vec();
    let answer = translate(table, &mut buffer);
    format!("{} {}", line_of_answer(answer), hash_of(&buffer))
}

/// The numbers of a sheet that stands in 4 bytes each, lowest first.
pub fn numbers_of(bytes: &[u8]) -> Vec<u32> {
    let numbers = bytes.chunks_exact(4);
    numbers
        .map(|four| u32::from_le_bytes([four[0], four[1], four[2], four[3]]))
        .collect()
}

/// The hash of a sheet, each number as 4 bytes, lowest first.
pub fn hash_of_numbers(numbers: &[u32]) -> String {
    let bytes: Vec<u8> = numbers.iter().flat_map(|n| n.to_le_bytes()).collect();
    hash_of(&bytes)
}

/// FNV-1a of 32 bits, as 8 hex digits.
pub fn hash_of(bytes: &[u8]) -> String {
    let mut hash: u32 = 0x811C_9DC5;
    for &byte in bytes {
        hash = (hash ^ u32::from(byte)).wrapping_mul(0x0100_0193);
    }
    format!("{hash:08x}")
}

/// Bytes in lowercase hex.
pub fn hex_of(bytes: &[u8]) -> String {
    bytes.iter().map(|byte| format!("{byte:02x}")).collect()
}

/// The bytes of lowercase hex, or nothing if it is none.
pub fn bytes_of_hex(hex: &str) -> Option<Vec<u8>> {
    let digits: Option<Vec<u8>> = hex.bytes().map(digit).collect();
    let digits = digits?;
    if digits.len() % 2 != 0 {
        return None;
    }
    let pairs = digits.chunks_exact(2);
    Some(pairs.map(|pair| 16 * pair[0] + pair[1]).collect())
}

fn digit(byte: u8) -> Option<u8> {
    match byte {
        b'0'..=b'9' => Some(byte - b'0'),
        b'a'..=b'f' => Some(byte - b'a' + 10),
        _ => None,
    }
}

#[cfg(test)]
mod tests {
    use super::*;

    #[test]
    fn known_hashes() {
        assert_eq!(hash_of(b""), "811c9dc5");
        assert_eq!(hash_of(b"a"), "e40c292c");
        assert_eq!(hash_of(b"foobar"), "bf9cf968");
        assert_eq!(hash_of_numbers(&[0x0403_0201]), hash_of(&[1, 2, 3, 4]));
    }

    #[test]
    fn hex_both_ways() {
        assert_eq!(hex_of(&[0, 0x7F, 0xFF]), "007fff");
        assert_eq!(bytes_of_hex("007fff"), Some(vec![0, 0x7F, 0xFF]));
        for none in ["0", "0g", "FF", "-"] {
            assert_eq!(bytes_of_hex(none), None);
        }
    }
}
