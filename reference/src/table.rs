//! Tables: from bytes to a table or to its first fault.

use std::collections::HashSet;

use crate::answer::{Fault, LONG, RANGE, TWICE};
use crate::limits;
use crate::number::Reader;

/// A key. "A key number is never taken for a space number".
#[derive(Clone, Copy, Debug, PartialEq, Eq, Hash, PartialOrd, Ord)]
pub struct Key(pub u32);

/// A space, by its number in the table.
#[derive(Clone, Copy, Debug, PartialEq, Eq, Hash, PartialOrd, Ord)]
pub struct Space(pub usize);

/// Base names, the first one first.
pub type Path = Vec<u32>;

/// "Target: 0 and a key, or 1, a space number and a path."
#[derive(Clone, Debug, PartialEq, Eq)]
pub enum Target {
    Key(Key),
    Name(Space, Path),
}

/// A binding: "space number, base name, target".
#[derive(Clone, Debug, PartialEq, Eq)]
pub struct Binding {
    pub space: Space,
    pub base_name: u32,
    pub target: Target,
}

/// An access record: "space number (the owner), object, right, path, depth".
#[derive(Clone, Debug, PartialEq, Eq)]
pub struct AccessRecord {
    pub owner: Space,
    pub object: u32,
    pub right: u32,
    pub path: Path,
    pub depth: u32,
}

/// A delegation: "space number (the writer), owner path, object, right,
/// delegatee path, depth".
#[derive(Clone, Debug, PartialEq, Eq)]
pub struct Delegation {
    pub writer: Space,
    pub owner_path: Path,
    pub object: u32,
    pub right: u32,
    pub delegatee_path: Path,
    pub depth: u32,
}

/// A table: spaces, bindings, access records and delegations, "each kind
/// numbered from 0 in table order".
#[derive(Clone, Debug, Default, PartialEq, Eq)]
pub struct Table {
    /// The SELF key of each space.
    pub spaces: Vec<Key>,
    pub bindings: Vec<Binding>,
    pub access_records: Vec<AccessRecord>,
    pub delegations: Vec<Delegation>,
}

/// Reads a table.
///
/// "Table: the version 1; count of spaces, each its key; count of bindings
/// ...; count of access records ...; count of delegations ... Nothing follows.
/// At most 32,768 bytes." The order of faults is "Long, then 2 to 7 by first
/// place in reading order".
pub fn read_table(bytes: &[u8]) -> Result<Table, Fault> {
    if bytes.len() > limits::TABLE_BYTES {
        return Err(Fault::at(LONG, 0));
    }
    let mut reader = Reader::new(bytes);
    reader.version(limits::TABLE_VERSION)?;
    let spaces = read_spaces(&mut reader)?;
    let bindings = read_bindings(&mut reader, spaces.len())?;
    let access_records = read_access_records(&mut reader, spaces.len())?;
    let delegations = read_delegations(&mut reader, spaces.len())?;
    reader.end()?;
    Ok(Table {
        spaces,
        bindings,
        access_records,
        delegations,
    })
}

fn read_spaces(reader: &mut Reader) -> Result<Vec<Key>, Fault> {
    let count = reader.number_in(0, limits::SPACES)?;
    let mut spaces = Vec::new();
    for _ in 0..count {
        let start = reader.place();
        let key = read_key(reader)?;
        // "Spaces have distinct keys." "Twice points at the key or base name
        // that repeats."
        if spaces.contains(&key) {
            return Err(Fault::at(TWICE, start));
        }
        spaces.push(key);
    }
    Ok(spaces)
}

fn read_bindings(reader: &mut Reader, spaces: usize) -> Result<Vec<Binding>, Fault> {
    let count = reader.number_in(0, limits::BINDINGS)?;
    let mut bindings = Vec::new();
    let mut bound = HashSet::new();
    for _ in 0..count {
        let space = read_space(reader, spaces)?;
        let start = reader.place();
        let base_name = read_base_name(reader)?;
        // "A space binds a base name once." "Twice points at the key or base
        // name that repeats."
        if !bound.insert((space, base_name)) {
            return Err(Fault::at(TWICE, start));
        }
        let target = read_target(reader, spaces)?;
        bindings.push(Binding {
            space,
            base_name,
            target,
        });
    }
    Ok(bindings)
}

// "Access records and delegations may repeat."
fn read_access_records(reader: &mut Reader, spaces: usize) -> Result<Vec<AccessRecord>, Fault> {
    let count = reader.number_in(0, limits::ACCESS_RECORDS)?;
    let mut records = Vec::new();
    for _ in 0..count {
        records.push(AccessRecord {
            owner: read_space(reader, spaces)?,
            object: read_object(reader)?,
            right: read_right(reader)?,
            path: read_path(reader)?,
            depth: read_depth(reader)?,
        });
    }
    Ok(records)
}

fn read_delegations(reader: &mut Reader, spaces: usize) -> Result<Vec<Delegation>, Fault> {
    let count = reader.number_in(0, limits::DELEGATIONS)?;
    let mut delegations = Vec::new();
    for _ in 0..count {
        delegations.push(Delegation {
            writer: read_space(reader, spaces)?,
            owner_path: read_path(reader)?,
            object: read_object(reader)?,
            right: read_right(reader)?,
            delegatee_path: read_path(reader)?,
            depth: read_depth(reader)?,
        });
    }
    Ok(delegations)
}

/// "a target's first number is 0 or 1, else Range."
pub(crate) fn read_target(reader: &mut Reader, spaces: usize) -> Result<Target, Fault> {
    if reader.number_in(0, 1)? == 0 {
        return Ok(Target::Key(read_key(reader)?));
    }
    let space = read_space(reader, spaces)?;
    let path = read_path(reader)?;
    Ok(Target::Name(space, path))
}

/// "A space number in a table is below its count of spaces ... else Range."
pub(crate) fn read_space(reader: &mut Reader, spaces: usize) -> Result<Space, Fault> {
    let start = reader.place();
    let number = reader.number()? as usize;
    if number >= spaces {
        return Err(Fault::at(RANGE, start));
    }
    Ok(Space(number))
}

/// "Path: length 0 to 4, then that many base names."
fn read_path(reader: &mut Reader) -> Result<Path, Fault> {
    let length = reader.number_in(0, limits::PATH_LENGTH)?;
    let mut path = Path::new();
    for _ in 0..length {
        path.push(read_base_name(reader)?);
    }
    Ok(path)
}

/// "A key is a number from 1 to 4,294,967,295".
pub(crate) fn read_key(reader: &mut Reader) -> Result<Key, Fault> {
    reader.number_in(1, limits::GREATEST_KEY).map(Key)
}

/// "a base name 1 to 65,535".
fn read_base_name(reader: &mut Reader) -> Result<u32, Fault> {
    reader.number_in(1, limits::GREATEST_BASE_NAME)
}

/// "an object 0 to 65,535".
pub(crate) fn read_object(reader: &mut Reader) -> Result<u32, Fault> {
    reader.number_in(0, limits::GREATEST_OBJECT)
}

/// "a right 1 to 32".
pub(crate) fn read_right(reader: &mut Reader) -> Result<u32, Fault> {
    reader.number_in(1, limits::GREATEST_RIGHT)
}

/// "Depths run from 0 to 15".
pub(crate) fn read_depth(reader: &mut Reader) -> Result<u32, Fault> {
    reader.number_in(0, limits::GREATEST_DEPTH)
}
