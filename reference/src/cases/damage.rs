//! Damage to a row of numbers: what a reader has to find.

use super::marks::{Field, Mark, Marks};
use super::random::Random;
use crate::number::write_number;

/// A number as written, with its field: damage may give it any bytes.
struct Piece {
    field: Field,
    value: u32,
    bytes: Vec<u8>,
}

/// The bytes of these numbers, damaged once, or twice so that the first fault
/// has to be told from the second.
pub fn damaged(random: &mut Random, marks: &Marks) -> Vec<u8> {
    let mut pieces: Vec<Piece> = marks.0.iter().map(piece_of).collect();
    let times = if random.chance(25) { 2 } else { 1 };
    let mut bytes_too = false;
    for _ in 0..times {
        if random.chance(60) {
            damage_numbers(random, &mut pieces);
        } else {
            bytes_too = true;
        }
    }
    let mut bytes: Vec<u8> = pieces.into_iter().flat_map(|piece| piece.bytes).collect();
    if bytes_too {
        damage_bytes(random, &mut bytes);
    }
    bytes
}

fn piece_of(mark: &Mark) -> Piece {
    Piece {
        field: mark.field,
        value: mark.value,
        bytes: shortest(mark.value),
    }
}

fn shortest(value: u32) -> Vec<u8> {
    let mut bytes = Vec::new();
    write_number(&mut bytes, value);
    bytes
}

/// Damages one of the numbers, or two.
fn damage_numbers(random: &mut Random, pieces: &mut Vec<Piece>) {
    let at = random.place(pieces.len());
    match random.below(12) {
        0 => lengthen(random, pieces, at),
        1 => enlarge(random, pieces, at),
        2 | 3 => move_by_one(random, pieces, at),
        4..=8 => set_to_edge(random, pieces),
        9 => drop_or_double(random, pieces, at),
        _ => copy_within_field(random, pieces, at),
    }
}

/// A long form of the same value.
fn lengthen(random: &mut Random, pieces: &mut [Piece], at: usize) {
    let Some(piece) = pieces.get_mut(at) else {
        return;
    };
    let groups = random.count(1, 5);
    if let Some(last) = piece.bytes.last_mut() {
        *last |= 0x80;
    }
    piece.bytes.extend(vec![0x80; groups - 1]);
    piece.bytes.push(0);
}

/// A number of five bytes or more, most of them too large.
fn enlarge(random: &mut Random, pieces: &mut [Piece], at: usize) {
    let Some(piece) = pieces.get_mut(at) else {
        return;
    };
    let top = random.one_of([0x80, 0xFF, 0x81]);
    let groups = random.count(4, 6);
    piece.bytes = vec![top; groups];
    piece
        .bytes
        .push(random.one_of([0x00, 0x01, 0x0F, 0x10, 0x1F, 0x7F]));
}

/// One more or one less: counts off by one among them.
fn move_by_one(random: &mut Random, pieces: &mut [Piece], at: usize) {
    let at = if random.chance(40) {
        place_of_count(random, pieces).unwrap_or(at)
    } else {
        at
    };
    let Some(piece) = pieces.get_mut(at) else {
        return;
    };
    piece.value = if random.chance(50) {
        piece.value.saturating_add(1)
    } else {
        piece.value.saturating_sub(1)
    };
    piece.bytes = shortest(piece.value);
}

/// The place of one of the counts.
fn place_of_count(random: &mut Random, pieces: &[Piece]) -> Option<usize> {
    let counts: Vec<usize> = (0..pieces.len())
        .filter(|&at| is_count(pieces[at].field))
        .collect();
    random.pick(&counts)
}

fn is_count(field: Field) -> bool {
    matches!(
        field,
        Field::CountOfSpaces
            | Field::CountOfBindings
            | Field::CountOfAccessRecords
            | Field::CountOfDelegations
            | Field::CountOfChain
            | Field::PathLength
    )
}

/// A value at the edge of its field or one past. The field is chosen first, so
/// that rare fields have their turn.
fn set_to_edge(random: &mut Random, pieces: &mut [Piece]) {
    let mut fields: Vec<Field> = Vec::new();
    for piece in pieces.iter() {
        if !fields.contains(&piece.field) {
            fields.push(piece.field);
        }
    }
    let Some(field) = random.pick(&fields) else {
        return;
    };
    let places: Vec<usize> = (0..pieces.len())
        .filter(|&at| pieces[at].field == field)
        .collect();
    let value = random.pick(edges(field));
    if let (Some(at), Some(value)) = (random.pick(&places), value) {
        pieces[at].value = value;
        pieces[at].bytes = shortest(value);
    }
}

/// Values at the edges of a field and one past them.
fn edges(field: Field) -> &'static [u32] {
    match field {
        Field::Version => &[0, 1, 2, 127, 128, 4_294_967_295],
        Field::CountOfSpaces => &[0, 63, 64, 65, 4_294_967_295],
        Field::CountOfBindings => &[0, 255, 256, 257],
        Field::CountOfAccessRecords => &[0, 255, 256, 257],
        Field::CountOfDelegations => &[0, 511, 512, 513],
        Field::CountOfChain => &[0, 1, 15, 16, 17],
        Field::SelfKey | Field::Key => &[0, 1, 4_294_967_295],
        Field::Space => &[0, 1, 2, 3, 63, 64, 65, 4_294_967_295],
        Field::BaseName => &[0, 1, 65_535, 65_536],
        Field::Form => &[0, 1, 2, 3],
        Field::PathLength => &[0, 1, 4, 5, 128],
        Field::Object => &[0, 65_535, 65_536],
        Field::Right => &[0, 1, 32, 33],
        Field::Depth => &[0, 14, 15, 16, 17],
        Field::BindingNumber | Field::AccessRecordNumber => &[0, 1, 255, 256],
        Field::DelegationNumber => &[0, 1, 511, 512],
    }
}

/// A number left out, or there twice.
fn drop_or_double(random: &mut Random, pieces: &mut Vec<Piece>, at: usize) {
    if at >= pieces.len() {
        return;
    }
    let piece = pieces.remove(at);
    if random.chance(50) {
        let twin = Piece {
            field: piece.field,
            value: piece.value,
            bytes: piece.bytes.clone(),
        };
        pieces.insert(at, piece);
        pieces.insert(at, twin);
    }
}

/// The value of another number of the same field: keys that repeat among them.
fn copy_within_field(random: &mut Random, pieces: &mut [Piece], at: usize) {
    let at = if random.chance(50) {
        place_of(random, pieces, Field::SelfKey).unwrap_or(at)
    } else {
        at
    };
    let Some(field) = pieces.get(at).map(|piece| piece.field) else {
        return;
    };
    if let Some(from) = place_of(random, pieces, field) {
        pieces[at].value = pieces[from].value;
        pieces[at].bytes = pieces[from].bytes.clone();
    }
}

/// A place of this field.
fn place_of(random: &mut Random, pieces: &[Piece], field: Field) -> Option<usize> {
    let places: Vec<usize> = (0..pieces.len())
        .filter(|&at| pieces[at].field == field)
        .collect();
    random.pick(&places)
}

/// Damages the bytes, whatever they mean.
pub fn damage_bytes(random: &mut Random, bytes: &mut Vec<u8>) {
    let at = random.place(bytes.len());
    match random.below(10) {
        0 | 1 => bytes.truncate(at),
        2 => flip_bit(random, bytes, at),
        3 | 4 => replace_byte(random, bytes, at),
        5 => bytes.insert(at, random.number() as u8),
        6 if !bytes.is_empty() => {
            bytes.remove(at);
        }
        7 => break_off_within_number(random, bytes, at),
        8 => break_off_near_end(random, bytes),
        _ => add_spare_bytes(random, bytes),
    }
}

fn flip_bit(random: &mut Random, bytes: &mut [u8], at: usize) {
    if let Some(byte) = bytes.get_mut(at) {
        *byte ^= 1 << random.below(8);
    }
}

fn replace_byte(random: &mut Random, bytes: &mut [u8], at: usize) {
    let any = random.number() as u8;
    let new = random.one_of([any, 0x00, 0x01, 0x7F, 0x80, 0xFF]);
    if let Some(byte) = bytes.get_mut(at) {
        *byte = new;
    }
}

/// Ends with one to six bytes whose top bits are set.
fn break_off_within_number(random: &mut Random, bytes: &mut Vec<u8>, at: usize) {
    bytes.truncate(at);
    let count = random.count(1, 6);
    let byte = random.one_of([0x80, 0xFF]);
    bytes.extend(vec![byte; count]);
}

/// Loses a few of the last bytes.
fn break_off_near_end(random: &mut Random, bytes: &mut Vec<u8>) {
    let lost = random.count(1, 4);
    bytes.truncate(bytes.len().saturating_sub(lost));
}

fn add_spare_bytes(random: &mut Random, bytes: &mut Vec<u8>) {
    let count = random.count(1, 3);
    let spare = if random.chance(50) {
        vec![0; count]
    } else {
        random.bytes(count)
    };
    bytes.extend(spare);
}

/// Adds spare bytes up to this length.
pub fn stretch(random: &mut Random, bytes: &mut Vec<u8>, length: usize) {
    if bytes.len() < length {
        let spare = length - bytes.len();
        let more = if random.chance(50) {
            vec![0; spare]
        } else {
            random.bytes(spare)
        };
        bytes.extend(more);
    }
}
