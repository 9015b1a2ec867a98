//! The numbers of a table alone, decoded by a plain loop: what reading is held
//! against.

/// The sum of all numbers, which stand one behind the other; none where the
/// bytes hold anything else.
pub fn sum(bytes: &[u8]) -> Option<u64> {
    let mut sum = 0;
    let mut rest = bytes;
    while !rest.is_empty() {
        let (value, taken) = first(rest)?;
        sum += value;
        rest = &rest[taken..];
    }
    Some(sum)
}

/// The number that the bytes begin with, in its shortest form and of at most 32
/// bits, and how many bytes it takes.
fn first(bytes: &[u8]) -> Option<(u64, usize)> {
    let mut value = 0;
    for (i, &byte) in bytes.iter().take(5).enumerate() {
        value |= u64::from(byte & 0x7F) << (7 * i);
        if byte < 0x80 {
            let shortest = i == 0 || byte != 0;
            return (shortest && value <= u64::from(u32::MAX)).then_some((value, i + 1));
        }
    }
    None
}
