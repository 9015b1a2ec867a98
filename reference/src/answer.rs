//! The reviewer's list of answers.

/// Granted or accepted, with depth, and for a grant the derivation's length.
pub const GRANTED: u32 = 0;
/// Table over its byte limit.
pub const LONG: u32 = 1;
/// Table ends before a number is whole.
pub const CUT: u32 = 2;
/// Not shortest, or too large.
pub const NUMBER: u32 = 3;
/// Number outside its field, counts included.
pub const RANGE: u32 = 4;
/// Second space with a key, second binding of a name in a space.
pub const TWICE: u32 = 5;
/// Bytes after the last record.
pub const EXTRA: u32 = 6;
/// First number is not 1 (key table: not 0).
pub const VERSION: u32 = 7;
/// Any fault in the request's bytes, its space numbers against this table included.
pub const REQUEST: u32 = 8;
/// A lent output is short.
pub const ROOM: u32 = 9;
/// The subject's name has no meaning.
pub const UNNAMED: u32 = 10;
/// Subject has a meaning, no access.
pub const DENIED: u32 = 11;
/// Checker: malformed, or does not hold.
pub const NOT_A_DERIVATION: u32 = 12;
/// The derivation found does not fit in 512 bytes.
pub const OVERRUN: u32 = 13;

const WORDS: [&str; 14] = [
    "Granted or accepted",
    "Long",
    "Cut",
    "Number",
    "Range",
    "Twice",
    "Extra",
    "Version",
    "Request",
    "Room",
    "Unnamed",
    "Denied",
    "Not a derivation",
    "Overrun",
];

/// The word of the list for an answer's number.
pub fn word(number: u32) -> &'static str {
    let listed = usize::try_from(number).ok().and_then(|n| WORDS.get(n));
    listed.copied().unwrap_or("not listed")
}

/// What a public function answers.
///
/// "A number that an answer does not carry is 0."
#[derive(Clone, Copy, Debug, Default, PartialEq, Eq)]
pub struct Answer {
    pub number: u32,
    pub offset: u32,
    pub depth: u32,
    pub length: u32,
}

impl Answer {
    /// A grant, with its depth and the length of the derivation.
    pub fn granted(depth: u32, length: usize) -> Answer {
        Answer {
            number: GRANTED,
            offset: 0,
            depth,
            length: length as u32,
        }
    }

    /// An acceptance by the checker or a grant over keys, with its depth alone.
    pub fn accepted(depth: u32) -> Answer {
        Answer::granted(depth, 0)
    }

    /// "A finished translation ... answers 0 with its length."
    pub fn finished(length: usize) -> Answer {
        Answer::granted(0, length)
    }

    /// A refusal that carries nothing.
    pub fn refused(number: u32) -> Answer {
        Answer {
            number,
            ..Answer::default()
        }
    }
}

/// A fault in the bytes of a table or key table.
///
/// "Answers 2 to 7 carry the offset of that number's first byte (Extra: the
/// first spare byte; Cut at the end: the table's length)."
#[derive(Clone, Copy, Debug, PartialEq, Eq)]
pub struct Fault {
    pub number: u32,
    pub offset: u32,
}

impl Fault {
    /// The fault with this number at this place.
    pub fn at(number: u32, place: usize) -> Fault {
        Fault {
            number,
            offset: place as u32,
        }
    }
}

impl From<Fault> for Answer {
    fn from(fault: Fault) -> Answer {
        Answer {
            number: fault.number,
            offset: fault.offset,
            ..Answer::default()
        }
    }
}
