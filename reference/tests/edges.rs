//! Limits at their edges and one past, and the order of faults.

mod common;

use common::{answer, decide_in_full, decide_with, numbers, refusal, T};
use reference::cases::full::longest;
use reference::cases::random::Random;
use reference::cases::tables::write_table;
use reference::{
    check, decide_by_keys, read_derivation, read_key_request, read_key_table, read_request,
    read_table, translate, Fault,
};

fn fault_of(values: &[u32]) -> Option<(u32, u32)> {
    read_table(&numbers(values)).err().map(pair)
}

fn key_fault_of(values: &[u32]) -> Option<(u32, u32)> {
    read_key_table(&numbers(values)).err().map(pair)
}

fn pair(fault: Fault) -> (u32, u32) {
    (fault.number, fault.offset)
}

/// The first one is good, the rest are Range at this offset. Each is a table
/// but for the number that is tried.
fn good_then_range(table: impl Fn(u32) -> Vec<u32>, good: &[u32], bad: &[u32], offset: u32) {
    for &value in good {
        assert_eq!(fault_of(&table(value)), None, "{value}");
    }
    for &value in bad {
        assert_eq!(fault_of(&table(value)), Some((4, offset)), "{value}");
    }
}

#[test]
fn fields_of_a_table() {
    let most = u32::MAX;
    // A space's key.
    good_then_range(|n| vec![1, 1, n, 0, 0, 0], &[1, most], &[0], 2);
    // A binding's space, base name, target, target's key.
    let binding = |row: &[u32]| [&[1, 2, 7, 8, 1], row, &[0, 0]].concat();
    good_then_range(|n| binding(&[n, 1, 0, 9]), &[0, 1], &[2, most], 5);
    good_then_range(|n| binding(&[0, n, 0, 9]), &[1, 65_535], &[0, 65_536], 6);
    good_then_range(|n| binding(&[0, 1, n, 1, 0]), &[1], &[2, most], 7);
    good_then_range(|n| binding(&[0, 1, 0, n]), &[1, most], &[0], 8);
    good_then_range(|n| binding(&[0, 1, 1, n, 0]), &[0, 1], &[2, most], 8);
    // A target's path.
    good_then_range(|n| binding(&[0, 1, 1, 0, n]), &[0], &[5, 6, most], 9);
    let four = [0, 1, 1, 0, 4, 1, 65_535, 1, 1];
    assert_eq!(fault_of(&binding(&four)), None);
    let five = [0, 1, 1, 0, 5, 1, 1, 1, 1, 1];
    assert_eq!(fault_of(&binding(&five)), Some((4, 9)));
    let named = |n| binding(&[0, 1, 1, 0, 2, 1, n]);
    good_then_range(named, &[1, 65_535], &[0, 65_536], 11);
}

#[test]
fn fields_of_records() {
    let access = |row: &[u32]| [&[1, 1, 7, 0, 1], row, &[0]].concat();
    good_then_range(|n| access(&[n, 7, 2, 0, 0]), &[0], &[1, 2], 5);
    good_then_range(|n| access(&[0, n, 2, 0, 0]), &[0, 65_535], &[65_536], 6);
    good_then_range(|n| access(&[0, 7, n, 0, 0]), &[1, 32], &[0, 33], 7);
    good_then_range(|n| access(&[0, 7, 2, n, 0]), &[0], &[5], 8);
    good_then_range(
        |n| access(&[0, 7, 2, 1, n, 0]),
        &[1, 65_535],
        &[0, 65_536],
        9,
    );
    good_then_range(|n| access(&[0, 7, 2, 0, n]), &[0, 15], &[16], 9);
    let delegation = |row: &[u32]| [&[1, 1, 7, 0, 0, 1], row].concat();
    good_then_range(|n| delegation(&[n, 0, 7, 2, 0, 0]), &[0], &[1], 6);
    good_then_range(|n| delegation(&[0, n, 7, 2, 0, 0]), &[0], &[5], 7);
    good_then_range(
        |n| delegation(&[0, 1, n, 7, 2, 0, 0]),
        &[1, 65_535],
        &[0, 65_536],
        8,
    );
    good_then_range(
        |n| delegation(&[0, 0, n, 2, 0, 0]),
        &[0, 65_535],
        &[65_536],
        8,
    );
    good_then_range(|n| delegation(&[0, 0, 7, n, 0, 0]), &[1, 32], &[0, 33], 9);
    good_then_range(|n| delegation(&[0, 0, 7, 2, n, 0]), &[0], &[5], 10);
    good_then_range(|n| delegation(&[0, 0, 7, 2, 0, n]), &[0, 15], &[16], 11);
}

#[test]
fn counts_of_a_table() {
    let bindings = |count: u32| {
        let mut values = vec![1, 1, 9, count];
        for base_name in 1..=count {
            values.extend([0, base_name, 0, 5]);
        }
        values.extend([0, 0]);
        values
    };
    good_then_range(bindings, &[0, 1, 256], &[257, 258, 4095], 3);
    let access_records = |count: u32| {
        let mut values = vec![1, 1, 9, 0, count];
        for _ in 0..count {
            values.extend([0, 7, 2, 0, 15]);
        }
        values.push(0);
        values
    };
    good_then_range(access_records, &[0, 1, 256], &[257, 300], 4);
    let delegations = |count: u32| {
        let mut values = vec![1, 1, 9, 0, 0, count];
        for _ in 0..count {
            values.extend([0, 0, 7, 2, 0, 15]);
        }
        values
    };
    good_then_range(delegations, &[0, 1, 512], &[513, 600], 5);
    // A count is judged before any record of its section.
    assert_eq!(fault_of(&[1, 65]), Some((4, 1)));
    assert_eq!(fault_of(&[1, 64]), Some((2, 2)));
}

#[test]
fn versions() {
    assert_eq!(fault_of(&[0, 0, 0, 0, 0]), Some((7, 0)));
    assert_eq!(fault_of(&[2, 0, 0, 0, 0]), Some((7, 0)));
    assert_eq!(fault_of(&[u32::MAX]), Some((7, 0)));
    // Cut and Number come before Version.
    assert_eq!(read_table(&[0x82]).err().map(pair), Some((2, 0)));
    assert_eq!(read_table(&[0x82, 0]).err().map(pair), Some((3, 0)));
    assert_eq!(read_table(&[0x81, 0]).err().map(pair), Some((3, 0)));
    assert_eq!(key_fault_of(&[1, 0, 0]), Some((7, 0)));
    assert_eq!(key_fault_of(&[0, 0, 0]), None);
}

#[test]
fn twice() {
    // The second space with a key, the third among others.
    assert_eq!(fault_of(&[1, 2, 9, 9, 0, 0, 0]), Some((5, 3)));
    assert_eq!(fault_of(&[1, 3, 300, 9, 300]), Some((5, 5)));
    // The second binding of a name in a space: at the base name, before any
    // fault of the target.
    let twice = [1, 2, 9, 8, 2, 0, 4, 0, 5, 0, 4, 2];
    assert_eq!(fault_of(&twice), Some((5, 10)));
    // Another space or another base name is no repeat.
    assert_eq!(
        fault_of(&[1, 2, 9, 8, 2, 0, 4, 0, 5, 1, 4, 0, 5, 0, 0]),
        None
    );
    assert_eq!(
        fault_of(&[1, 2, 9, 8, 2, 0, 4, 0, 5, 0, 3, 0, 5, 0, 0]),
        None
    );
    // Range comes before Twice for one number: key 0 twice.
    assert_eq!(fault_of(&[1, 2, 0, 0]), Some((4, 2)));
}

#[test]
fn long_comes_first() {
    let mut bytes = T.to_vec();
    bytes.resize(32_768, 0);
    assert_eq!(read_table(&bytes).err().map(pair), Some((6, 59)));
    bytes.push(0);
    assert_eq!(read_table(&bytes).err().map(pair), Some((1, 0)));
    bytes[0] = 9;
    assert_eq!(read_table(&bytes).err().map(pair), Some((1, 0)));
    bytes.pop();
    assert_eq!(read_table(&bytes).err().map(pair), Some((7, 0)));
    let mut keys = vec![0; 16_384];
    assert_eq!(read_key_table(&keys).err().map(pair), Some((6, 3)));
    keys.push(0);
    assert_eq!(read_key_table(&keys).err().map(pair), Some((1, 0)));
}

#[test]
fn cut_and_number_carry_the_numbers_first_byte() {
    let mut bytes = T[..10].to_vec();
    for set in 0..5 {
        let mut cut = bytes.clone();
        cut.extend(vec![0xFF; set]);
        assert_eq!(read_table(&cut).err().map(pair), Some((2, 10)));
    }
    bytes.extend([0xFF; 5]);
    assert_eq!(read_table(&bytes).err().map(pair), Some((3, 10)));
    bytes.push(0);
    assert_eq!(read_table(&bytes).err().map(pair), Some((3, 10)));
    // The first fault counts: a long form before a Range.
    let first = [1, 0x80, 0x00, 77];
    assert_eq!(read_table(&first).err().map(pair), Some((3, 1)));
}

#[test]
fn requests() {
    let table = read_table(&T).expect("T is a good table");
    let good = |values: &[u32]| read_request(&table, &numbers(values)).is_some();
    assert!(good(&[0, 1, 0, 0, 1]));
    assert!(good(&[0, u32::MAX, 2, 65_535, 32]));
    assert!(good(&[1, 2, 4, 1, 2, 3, 65_535, 0, 7, 2]));
    let bad: [&[u32]; 16] = [
        &[],
        &[0, 0, 0, 7, 2],
        &[2, 1, 0, 7, 2],
        &[0, 20, 3, 7, 2],
        &[0, 20, u32::MAX, 7, 2],
        &[0, 20, 0, 65_536, 2],
        &[0, 20, 0, 7, 0],
        &[0, 20, 0, 7, 33],
        &[0, 20, 0, 7],
        &[0, 20, 0, 7, 2, 0],
        &[1, 3, 0, 0, 7, 2],
        &[1, 0, 5, 1, 1, 1, 1, 1, 0, 7, 2],
        &[1, 0, 1, 0, 0, 7, 2],
        &[1, 0, 1, 65_536, 0, 7, 2],
        &[1, 0, 2, 1, 0, 7, 2],
        &[0],
    ];
    for values in bad {
        assert!(!good(values), "{values:?}");
        assert_eq!(decide_in_full(&T, &numbers(values)).answer, refusal(8));
        assert_eq!(check(&T, &numbers(values), &[1, 0, 1, 0]), refusal(8));
    }
    assert!(read_request(&table, &[0x80, 0, 20, 0, 7, 2]).is_none());
    // 64 bytes and 65: spare bytes either way.
    for length in [63, 64, 65, 1000] {
        let mut bytes = vec![0, 20, 0, 7, 2];
        bytes.resize(length, 0);
        assert_eq!(decide_in_full(&T, &bytes).answer, refusal(8));
    }
}

#[test]
fn key_requests() {
    let good = |values: &[u32]| read_key_request(&numbers(values)).is_some();
    assert!(good(&[1, u32::MAX, 0, 1]));
    assert!(good(&[u32::MAX, 1, 65_535, 32]));
    let bad: [&[u32]; 8] = [
        &[],
        &[0, 1, 7, 2],
        &[1, 0, 7, 2],
        &[1, 1, 65_536, 2],
        &[1, 1, 7, 0],
        &[1, 1, 7, 33],
        &[1, 1, 7],
        &[1, 1, 7, 2, 0],
    ];
    for values in bad {
        assert!(!good(values), "{values:?}");
        assert_eq!(decide_by_keys(&[0, 0, 0], &numbers(values)), refusal(8));
    }
}

#[test]
fn key_table_fields() {
    assert_eq!(key_fault_of(&[0, 257]), Some((4, 1)));
    assert_eq!(key_fault_of(&[0, 256]), Some((2, 3)));
    assert_eq!(key_fault_of(&[0, 0, 513]), Some((4, 2)));
    assert_eq!(key_fault_of(&[0, 0, 512]), Some((2, 4)));
    let access = |row: [u32; 5]| key_fault_of(&[&[0, 1], &row[..], &[0]].concat());
    assert_eq!(access([1, 0, 1, 1, 0]), None);
    assert_eq!(access([1, 65_535, 32, 1, 15]), None);
    assert_eq!(access([0, 0, 1, 1, 0]), Some((4, 2)));
    assert_eq!(access([1, 65_536, 1, 1, 0]), Some((4, 3)));
    assert_eq!(access([1, 0, 0, 1, 0]), Some((4, 4)));
    assert_eq!(access([1, 0, 33, 1, 0]), Some((4, 4)));
    assert_eq!(access([1, 0, 1, 0, 0]), Some((4, 5)));
    assert_eq!(access([1, 0, 1, 1, 16]), Some((4, 6)));
    let delegation = |row: [u32; 6]| key_fault_of(&[&[0, 0, 1], &row[..]].concat());
    assert_eq!(delegation([1, 1, 65_535, 32, 1, 15]), None);
    assert_eq!(delegation([0, 1, 0, 1, 1, 0]), Some((4, 3)));
    assert_eq!(delegation([1, 0, 0, 1, 1, 0]), Some((4, 4)));
    assert_eq!(delegation([1, 1, 65_536, 1, 1, 0]), Some((4, 5)));
    assert_eq!(delegation([1, 1, 0, 0, 1, 0]), Some((4, 6)));
    assert_eq!(delegation([1, 1, 0, 33, 1, 0]), Some((4, 6)));
    assert_eq!(delegation([1, 1, 0, 1, 0, 0]), Some((4, 7)));
    assert_eq!(delegation([1, 1, 0, 1, 1, 16]), Some((4, 8)));
}

#[test]
fn derivations_by_form() {
    let good = |values: &[u32]| read_derivation(&numbers(values)).is_some();
    assert!(good(&[0, 1, 0]));
    assert!(good(&[1, 255, 1, 255]));
    assert!(good(&[0, 2, 255, 511]));
    let all: Vec<u32> = (0..256).collect();
    let chain: Vec<u32> = vec![511; 15];
    assert!(good(&[&[256], &all[..], &[16, 255], &chain[..]].concat()));
    let bad: [&[u32]; 14] = [
        &[],
        &[0],
        &[0, 0],
        &[0, 0, 0],
        &[0, 1],
        &[0, 1, 256],
        &[0, 2, 0, 512],
        &[0, 2, 0],
        &[0, 1, 0, 0],
        &[1, 256, 1, 0],
        &[2, 7, 7, 1, 0],
        &[3, 7, 6, 7, 1, 0],
        &[257, 1, 0],
        &[2, 7, 1, 0],
    ];
    for values in bad {
        assert!(!good(values), "{values:?}");
    }
    let seventeen = [&[0, 17, 0], &vec![0; 16][..]].concat();
    assert!(!good(&seventeen));
    assert!(read_derivation(&[0x80, 0, 1, 0]).is_none());
}

#[test]
fn a_derivation_against_its_table() {
    let request = [0, 20, 0, 7, 2];
    let check = |derivation: &[u8]| check(&T, &request, derivation).number;
    assert_eq!(check(&[1, 0, 1, 0]), 0);
    // Listed and not used: no harm.
    assert_eq!(check(&[3, 0, 1, 5, 1, 0]), 0);
    // Binding 2 needs 0 and 1 before it.
    assert_eq!(check(&[3, 0, 1, 2, 1, 0]), 0);
    assert_eq!(check(&[3, 0, 2, 1, 1, 0]), 12);
    assert_eq!(check(&[2, 0, 2, 1, 0]), 12);
    // Binding 4 leads back to itself, used or not.
    assert_eq!(check(&[2, 0, 4, 1, 0]), 12);
    // No binding 6, no access record 2, no delegation 1.
    assert_eq!(check(&[2, 0, 6, 1, 0]), 12);
    assert_eq!(check(&[1, 0, 1, 2]), 12);
    assert_eq!(check(&[4, 0, 1, 3, 5, 2, 0, 1]), 12);
    // Not the subject's key, not the right asked for.
    assert_eq!(check(&[4, 0, 1, 3, 5, 2, 0, 0]), 12);
    assert_eq!(check(&[3, 0, 1, 2, 1, 1]), 12);
}

#[test]
fn room() {
    let request = [0, 20, 0, 7, 2];
    for (sheet, derivation) in [(255, 512), (256, 511), (0, 0), (0, 512), (256, 0)] {
        let decision = decide_with(&T, &request, sheet, derivation);
        assert_eq!(decision.answer, refusal(9));
        assert!(decision.touched_nothing());
    }
    for (sheet, derivation) in [(256, 512), (300, 600)] {
        let decision = decide_with(&T, &request, sheet, derivation);
        assert_eq!(decision.answer, answer(0, 0, 1, 4));
    }
    // Request before Room, Room before Unnamed and Denied.
    assert_eq!(decide_with(&T, &[9], 0, 0).answer, refusal(8));
    let unnamed = [1, 0, 1, 5, 0, 7, 2];
    assert_eq!(decide_with(&T, &unnamed, 255, 512).answer, refusal(9));
    assert_eq!(
        decide_with(&T, &[0, 10, 0, 7, 2], 255, 512).answer,
        refusal(9)
    );
    for room in [0, 19, 16_383] {
        let mut buffer = vec![0x55; room];
        assert_eq!(translate(&T, &mut buffer), refusal(9));
        assert!(buffer.iter().all(|&b| b == 0x55));
    }
    assert_eq!(translate(&T[..9], &mut []), answer(2, 9, 0, 0));
}

/// The longest derivation there is: 256 bindings and a chain of 16.
#[test]
fn the_longest_derivation() {
    for index in 0..6 {
        let scene = longest(&mut Random::of(1, index));
        let table = write_table(&scene.table);
        let key = scene.subject.expect("it has a subject");
        let request = numbers(&[0, key.0, 15, 7, 2]);
        let decision = decide_in_full(&table, &request);
        assert_eq!(decision.answer, answer(0, 0, 0, 419));
        let checked = check(&table, &request, decision.handed_out());
        assert_eq!(checked, answer(0, 0, 0, 0));
    }
}

/// The longest good table, key table, request and key request.
#[test]
fn longest_of_each() {
    let key = u32::MAX;
    let mut values = vec![1, 64];
    values.extend((0..64).map(|n| key - n));
    values.push(256);
    for n in 0..256 {
        let target = [1, 63, 4, 65_535, 65_535, 65_535, 65_535];
        values.extend([63, 65_535 - n]);
        values.extend(target);
    }
    let path = [4, 65_535, 65_535, 65_535, 65_535];
    values.push(256);
    for _ in 0..256 {
        values.extend([63, 65_535, 32]);
        values.extend(path);
        values.push(15);
    }
    values.push(512);
    for _ in 0..512 {
        values.push(63);
        values.extend(path);
        values.extend([65_535, 32]);
        values.extend(path);
        values.push(15);
    }
    let table = numbers(&values);
    assert_eq!(table.len(), 26_440);
    assert!(read_table(&table).is_ok());
    let mut values = vec![0, 256];
    for _ in 0..256 {
        values.extend([key, 65_535, 32, key, 15]);
    }
    values.push(512);
    for _ in 0..512 {
        values.extend([key, key, 65_535, 32, key, 15]);
    }
    let key_table = numbers(&values);
    assert_eq!(key_table.len(), 14_085);
    assert!(read_key_table(&key_table).is_ok());
}
