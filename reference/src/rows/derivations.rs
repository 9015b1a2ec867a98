//! Derivations, by their form alone.

use super::specimen::{P2, P3, P4};
use super::{changes, derivation, numbers, stretched, truncations, wrong_forms, MOST};
use crate::cases::Case;
use crate::limits::DERIVATION_BYTES;

/// The rows of derivations.
pub fn rows() -> Vec<Case> {
    let mut rows = of_the_specimen();
    rows.extend(fields());
    rows.extend(counts());
    rows.extend(twice());
    rows.extend(damaged(&[4, 0, 1, 3, 5, 2, 0, 0]));
    rows.extend(damaged(&[3, 255, 128, 127, 3, 255, 511, 128]));
    rows.extend(lengths());
    rows.into_iter().map(derivation).collect()
}

/// The derivations of the specimen's rows P2, P3 and P4.
fn of_the_specimen() -> Vec<Vec<u8>> {
    vec![P2.to_vec(), P3.to_vec(), P4.to_vec()]
}

/// Each number at its edges.
fn fields() -> Vec<Vec<u8>> {
    let mut rows: Vec<Vec<u32>> = Vec::new();
    for number in [0, 255, 256, MOST] {
        rows.push(vec![1, number, 1, 0]);
        rows.push(vec![2, 7, number, 1, 0]);
        rows.push(vec![0, 1, number]);
    }
    for number in [0, 511, 512, MOST] {
        rows.push(vec![0, 2, 0, number]);
        rows.push(vec![0, 3, 0, 7, number]);
    }
    rows.iter().map(|values| numbers(values)).collect()
}

/// A derivation that lists the first so many bindings.
fn with_bindings(count: u32) -> Vec<u32> {
    let listed: Vec<u32> = (0..count).collect();
    [&[count], &listed[..], &[1, 0]].concat()
}

/// A derivation whose chain has so many records.
fn with_chain(count: u32) -> Vec<u32> {
    let records = vec![0; count as usize];
    [&[0, count], &records[..]].concat()
}

/// The counts at their edges, with the numbers they count and without.
fn counts() -> Vec<Vec<u8>> {
    let mut rows: Vec<Vec<u32>> = Vec::new();
    rows.extend([0, 1, 255, 256, 257].map(with_bindings));
    rows.extend([0, 1, 2, 15, 16, 17].map(with_chain));
    rows.extend([0, 1, 256, 257, MOST].map(|count| vec![count]));
    rows.extend([0, 1, 16, 17, MOST].map(|count| vec![0, count]));
    // A chain of none with a number behind it.
    rows.push(vec![0, 0, 0]);
    rows.iter().map(|values| numbers(values)).collect()
}

/// A binding number twice, the chain's numbers twice: only the first is wrong.
fn twice() -> Vec<Vec<u8>> {
    let mut last_is_first = with_bindings(256);
    last_is_first[256] = 0;
    let rows: [&[u32]; 8] = [
        &[2, 7, 7, 1, 0],
        &[3, 7, 6, 7, 1, 0],
        &[2, 255, 255, 1, 0],
        &[2, 0, 0, 1, 0],
        &[2, 7, 6, 1, 7],
        &[0, 3, 0, 7, 7],
        &[1, 5, 3, 5, 5, 5],
        &last_is_first,
    ];
    rows.map(numbers).to_vec()
}

/// What can befall the bytes of a good one.
fn damaged(values: &[u32]) -> Vec<Vec<u8>> {
    let good = numbers(values);
    let mut rows = vec![good.clone(), [&good[..], &[0]].concat()];
    rows.extend(truncations(&good));
    rows.extend(changes(&good));
    rows.extend(wrong_forms(values));
    rows
}

/// The longest good derivation, and derivations of 512 and 513 bytes.
fn lengths() -> Vec<Vec<u8>> {
    let listed: Vec<u32> = (0..256).collect();
    let longest = numbers(&[&[256], &listed[..], &[16, 255], &[511; 15]].concat());
    let mut rows = vec![longest.clone()];
    for bytes in [longest, vec![1, 0, 1, 0]] {
        rows.push([&bytes[..], &[0]].concat());
        rows.push(stretched(&bytes, DERIVATION_BYTES));
        rows.push(stretched(&bytes, DERIVATION_BYTES + 1));
    }
    rows
}
