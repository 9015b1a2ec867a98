//! Case files: a byte for the kind, then each part as its length in 4 bytes,
//! lowest first, and its bytes.

use std::fmt;

use super::kinds::Kind;

/// One case: its kind and the kind's parts, in order.
#[derive(Clone, Debug, PartialEq, Eq)]
pub struct Case {
    pub kind: Kind,
    pub parts: Vec<Vec<u8>>,
}

/// Why bytes are no case file, and where.
#[derive(Clone, Debug, PartialEq, Eq)]
pub struct Malformed {
    pub place: usize,
    pub reason: &'static str,
}

impl fmt::Display for Malformed {
    fn fmt(&self, f: &mut fmt::Formatter) -> fmt::Result {
        write!(f, "case file: {} at byte {}", self.reason, self.place)
    }
}

/// Appends the bytes of a case.
pub fn write_case(out: &mut Vec<u8>, case: &Case) {
    out.push(case.kind.number());
    for part in &case.parts {
        out.extend((part.len() as u32).to_le_bytes());
        out.extend(part);
    }
}

/// Reads a case file.
pub fn read_cases(bytes: &[u8]) -> Result<Vec<Case>, Malformed> {
    let mut cases = Vec::new();
    let mut place = 0;
    while place < bytes.len() {
        cases.push(read_case(bytes, &mut place)?);
    }
    Ok(cases)
}

fn read_case(bytes: &[u8], place: &mut usize) -> Result<Case, Malformed> {
    let start = *place;
    let kind = take(bytes, place, 1)?[0];
    let kind = Kind::of_number(kind).ok_or(Malformed {
        place: start,
        reason: "no such kind",
    })?;
    let mut parts = Vec::new();
    for _ in 0..kind.parts() {
        parts.push(read_part(bytes, place)?);
    }
    // The sheet stands in whole numbers of 4 bytes.
    if kind == Kind::Decide && parts[2].len() % 4 != 0 {
        return Err(Malformed {
            place: start,
            reason: "a sheet of broken numbers",
        });
    }
    Ok(Case { kind, parts })
}

fn read_part(bytes: &[u8], place: &mut usize) -> Result<Vec<u8>, Malformed> {
    let mut length = [0; 4];
    length.copy_from_slice(take(bytes, place, 4)?);
    let length = u32::from_le_bytes(length) as usize;
    Ok(take(bytes, place, length)?.to_vec())
}

/// The next bytes, that many.
fn take<'a>(bytes: &'a [u8], place: &mut usize, count: usize) -> Result<&'a [u8], Malformed> {
    let rest = &bytes[*place..];
    if rest.len() < count {
        return Err(Malformed {
            place: *place,
            reason: "the file ends within a case",
        });
    }
    *place += count;
    Ok(&rest[..count])
}
