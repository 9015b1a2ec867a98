//! Requests: who asks for which right on which object of which owner.

use crate::answer::Fault;
use crate::limits;
use crate::number::Reader;
use crate::table::{read_object, read_right, read_space, read_target, Space, Table, Target};

/// "Request: target (the subject), owner space number, object, right."
#[derive(Clone, Debug, PartialEq, Eq)]
pub struct Request {
    pub subject: Target,
    pub owner: Space,
    pub object: u32,
    pub right: u32,
}

/// Reads a request to this table, or nothing where the answer is Request.
///
/// "Request: any fault in the request's bytes, its space numbers against this
/// table included". "At most 64 bytes."
pub fn read_request(table: &Table, bytes: &[u8]) -> Option<Request> {
    if bytes.len() > limits::REQUEST_BYTES {
        return None;
    }
    read_whole(table, bytes).ok()
}

fn read_whole(table: &Table, bytes: &[u8]) -> Result<Request, Fault> {
    let spaces = table.spaces.len();
    let mut reader = Reader::new(bytes);
    let request = Request {
        subject: read_target(&mut reader, spaces)?,
        owner: read_space(&mut reader, spaces)?,
        object: read_object(&mut reader)?,
        right: read_right(&mut reader)?,
    };
    reader.end()?;
    Ok(request)
}
