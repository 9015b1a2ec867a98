//! What the tests share: document 01's specimen and plain calls.
#![allow(dead_code)]

use reference::{decide, Answer};

/// Table T, 59 bytes.
pub const T: [u8; 59] = [
    0x01, 0x03, 0x0A, 0x14, 0x1E, 0x06, 0x00, 0x01, 0x00, 0x14, 0x01, 0x02, 0x01, 0x02, 0x00, 0x00,
    0x03, 0x01, 0x00, 0x02, 0x01, 0x02, 0x02, 0x04, 0x00, 0x28, 0x00, 0x05, 0x01, 0x00, 0x01, 0x05,
    0x01, 0x06, 0x00, 0x0A, 0x02, 0x00, 0x07, 0x02, 0x01, 0x01, 0x01, 0x00, 0x07, 0x03, 0x01, 0x03,
    0x00, 0x01, 0x01, 0x01, 0x06, 0x07, 0x02, 0x02, 0x02, 0x04, 0x03,
];

/// What stands in a lent sheet before a call.
pub const SHEET_BEFORE: u32 = 0xAAAA_AAAA;
/// What stands in a lent row of bytes before a call.
pub const BYTE_BEFORE: u8 = 0x55;

/// An answer with all its numbers.
pub fn answer(number: u32, offset: u32, depth: u32, length: u32) -> Answer {
    Answer {
        number,
        offset,
        depth,
        length,
    }
}

/// A refusal that carries nothing.
pub fn refusal(number: u32) -> Answer {
    answer(number, 0, 0, 0)
}

/// A decision with what its buffers hold afterwards.
pub struct Decision {
    pub answer: Answer,
    pub sheet: Vec<u32>,
    pub derivation: Vec<u8>,
}

impl Decision {
    /// The derivation handed out.
    pub fn handed_out(&self) -> &[u8] {
        &self.derivation[..self.answer.length as usize]
    }

    /// Whether nothing was written at all.
    pub fn touched_nothing(&self) -> bool {
        self.sheet.iter().all(|&number| number == SHEET_BEFORE)
            && self.derivation.iter().all(|&byte| byte == BYTE_BEFORE)
    }
}

/// A decision with buffers of these lengths.
pub fn decide_with(table: &[u8], request: &[u8], sheet: usize, derivation: usize) -> Decision {
    let mut sheet = vec![SHEET_BEFORE; sheet];
    let mut derivation = vec![BYTE_BEFORE; derivation];
    let answer = decide(table, request, &mut sheet, &mut derivation);
    Decision {
        answer,
        sheet,
        derivation,
    }
}

/// A decision with buffers just large enough.
pub fn decide_in_full(table: &[u8], request: &[u8]) -> Decision {
    decide_with(table, request, 256, 512)
}

/// The bytes of these numbers, each in its shortest form.
pub fn numbers(values: &[u32]) -> Vec<u8> {
    let mut out = Vec::new();
    for &value in values {
        reference::number::write_number(&mut out, value);
    }
    out
}
