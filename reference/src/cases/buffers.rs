//! Lent buffers of various lengths, with anything in them before.

use super::random::Random;

/// A sheet before the call, 4 bytes a number.
pub fn sheet(random: &mut Random) -> Vec<u8> {
    let numbers = match random.below(40) {
        0 => 0,
        1 => 255,
        2 => random.count(0, 255),
        3..=10 => 300,
        11..=16 => 257,
        _ => 256,
    };
    contents(random, 4 * numbers)
}

/// A derivation buffer before the call.
pub fn derivation(random: &mut Random) -> Vec<u8> {
    let length = match random.below(40) {
        0 => 0,
        1 => 511,
        2 => random.count(0, 511),
        3..=10 => 600,
        11..=16 => 513,
        _ => 512,
    };
    contents(random, length)
}

/// A key table buffer before the call.
pub fn key_table(random: &mut Random) -> Vec<u8> {
    let length = match random.below(20) {
        0 | 1 => 0,
        2 | 3 => 16_383,
        4 => random.count(0, 16_383),
        5..=8 => 17_000,
        9 | 10 => 16_385,
        _ => 16_384,
    };
    contents(random, length)
}

/// What stands in a buffer before: anything, or one byte throughout.
fn contents(random: &mut Random, length: usize) -> Vec<u8> {
    match random.below(4) {
        0 => vec![0; length],
        1 => vec![random.number() as u8; length],
        _ => random.bytes(length),
    }
}
