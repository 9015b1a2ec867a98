//! Document 01's specimen: its rows P1 to P10 and the rows that are run only.

mod common;

use common::{answer, decide_in_full, numbers, refusal, BYTE_BEFORE, SHEET_BEFORE, T};
use reference::{check, decide_by_keys, read_table, translate, Answer};

/// A request of a key for a right on object 7 of owner space 0.
fn by_key(key: u8, right: u8) -> Vec<u8> {
    vec![0, key, 0, 7, right]
}

/// A request of a path of one name in space 0.
fn by_name(base_name: u8, right: u8) -> Vec<u8> {
    vec![1, 0, 1, base_name, 0, 7, right]
}

#[test]
fn p1_sheet() {
    let decision = decide_in_full(&T, &by_key(20, 2));
    assert_eq!(decision.sheet[..6], [20, 30, 30, 40, 0, 10]);
    assert!(decision.sheet[6..].iter().all(|&n| n == SHEET_BEFORE));
}

#[test]
fn p2_granted_at_depth_1() {
    let decision = decide_in_full(&T, &by_key(20, 2));
    assert_eq!(decision.answer, answer(0, 0, 1, 4));
    assert_eq!(decision.handed_out(), [1, 0, 1, 0]);
    assert!(decision.derivation[4..].iter().all(|&b| b == BYTE_BEFORE));
    assert_eq!(check(&T, &by_key(20, 2), &[1, 0, 1, 0]), answer(0, 0, 1, 0));
}

#[test]
fn p3_granted_at_depth_0() {
    let decision = decide_in_full(&T, &by_key(40, 2));
    assert_eq!(decision.answer, answer(0, 0, 0, 8));
    let listed = [4, 0, 1, 3, 5, 2, 0, 0];
    assert_eq!(check(&T, &by_key(40, 2), &listed), answer(0, 0, 0, 0));
    let handed_out = decision.handed_out();
    assert_eq!(check(&T, &by_key(40, 2), handed_out), answer(0, 0, 0, 0));
}

#[test]
fn p4_without_binding_5() {
    let listed = [3, 0, 1, 3, 2, 0, 0];
    assert_eq!(check(&T, &by_key(40, 2), &listed), refusal(12));
}

#[test]
fn p5_denied() {
    assert_eq!(decide_in_full(&T, &by_key(40, 3)).answer, refusal(11));
}

#[test]
fn p6_granted_by_name() {
    let decision = decide_in_full(&T, &by_name(3, 3));
    assert_eq!(decision.answer.number, 0);
    assert_eq!(decision.answer.depth, 0);
    let handed_out = decision.handed_out();
    assert_eq!(check(&T, &by_name(3, 3), handed_out), answer(0, 0, 0, 0));
}

#[test]
fn p7_unnamed() {
    let decision = decide_in_full(&T, &by_name(5, 3));
    assert_eq!(decision.answer, refusal(10));
    assert_eq!(decision.sheet[..6], [20, 30, 30, 40, 0, 10]);
    assert!(decision.derivation.iter().all(|&b| b == BYTE_BEFORE));
    // "A subject whose name has no meaning gives 12 from the checker."
    assert_eq!(check(&T, &by_name(5, 3), &[2, 0, 1, 1, 1]), refusal(12));
}

#[test]
fn p8_the_owner_is_denied() {
    let decision = decide_in_full(&T, &by_key(10, 2));
    assert_eq!(decision.answer, refusal(11));
    assert_eq!(decision.sheet[..6], [20, 30, 30, 40, 0, 10]);
    assert!(decision.derivation.iter().all(|&b| b == BYTE_BEFORE));
}

/// A translation and what its buffer holds afterwards.
fn translated(table: &[u8], room: usize) -> (Answer, Vec<u8>) {
    let mut buffer = vec![BYTE_BEFORE; room];
    (translate(table, &mut buffer), buffer)
}

#[test]
fn p9_key_table() {
    let expected = [
        0x00, 0x02, 0x0A, 0x07, 0x02, 0x14, 0x01, 0x0A, 0x07, 0x03, 0x1E, 0x00, 0x01, 0x14, 0x0A,
        0x07, 0x02, 0x28, 0x03,
    ];
    let (answered, buffer) = translated(&T, 16_384);
    assert_eq!(answered, answer(0, 0, 0, 19));
    assert_eq!(buffer[..19], expected);
    assert!(buffer[19..].iter().all(|&b| b == BYTE_BEFORE));
    // The same decisions over keys.
    let rows = [
        ([20, 10, 7, 2], answer(0, 0, 1, 0)),
        ([40, 10, 7, 2], answer(0, 0, 0, 0)),
        ([40, 10, 7, 3], refusal(11)),
        ([30, 10, 7, 3], answer(0, 0, 0, 0)),
        ([10, 10, 7, 2], refusal(11)),
        ([20, 20, 7, 2], refusal(11)),
    ];
    for (request, expected_answer) in rows {
        assert_eq!(decide_by_keys(&expected, &request), expected_answer);
    }
}

#[test]
fn p10_the_empty_table() {
    let empty = [1, 0, 0, 0, 0];
    assert!(read_table(&empty).is_ok());
    let (answered, buffer) = translated(&empty, 16_384);
    assert_eq!(answered, answer(0, 0, 0, 3));
    assert_eq!(buffer[..3], [0, 0, 0]);
    // Its requests name a space that is not there.
    assert_eq!(decide_in_full(&empty, &by_key(20, 2)).answer, refusal(8));
}

#[test]
fn run_only_no_bytes_extra_and_cut() {
    assert_eq!(
        decide_in_full(&[], &by_key(20, 2)).answer,
        answer(2, 0, 0, 0)
    );
    let mut longer = T.to_vec();
    longer.push(0);
    let extra = answer(6, 59, 0, 0);
    assert_eq!(decide_in_full(&longer, &by_key(20, 2)).answer, extra);
    let shorter = &T[..58];
    let cut = answer(2, 58, 0, 0);
    assert_eq!(decide_in_full(shorter, &by_key(20, 2)).answer, cut);
}

#[test]
fn run_only_64_spaces_and_65() {
    let table = |count: u32| {
        let mut values = vec![1, count];
        values.extend(1..=count);
        values.extend([0, 0, 0]);
        numbers(&values)
    };
    assert_eq!(read_table(&table(64)).map(|t| t.spaces.len()), Ok(64));
    let fault = read_table(&table(65)).err().map(Answer::from);
    assert_eq!(fault, Some(answer(4, 1, 0, 0)));
}

#[test]
fn run_only_depth_15_and_16() {
    let mut deep = T;
    // The depths of both access records and of the delegation.
    for at in [42, 48, 58] {
        deep[at] = 15;
        assert!(read_table(&deep).is_ok());
        deep[at] = 16;
        let fault = read_table(&deep).err().map(Answer::from);
        assert_eq!(fault, Some(answer(4, at as u32, 0, 0)));
        deep[at] = T[at];
    }
}

#[test]
fn every_truncation_is_cut_at_its_end() {
    for length in 0..T.len() {
        let cut = answer(2, length as u32, 0, 0);
        let decision = decide_in_full(&T[..length], &by_key(20, 2));
        assert_eq!(decision.answer, cut);
        assert!(decision.touched_nothing());
        assert_eq!(check(&T[..length], &by_key(20, 2), &[1, 0, 1, 0]), cut);
        assert_eq!(translated(&T[..length], 16_384).0, cut);
    }
}

/// Every number of T is one byte, so a fault can only stand at or after the
/// byte that was changed.
#[test]
fn every_change_of_one_byte_gives_a_listed_answer() {
    let (mut good, mut faulty) = (0, 0);
    for at in 0..T.len() {
        for byte in 0..=255 {
            let mut changed = T;
            changed[at] = byte;
            let decision = decide_in_full(&changed, &by_key(20, 2));
            let checked = check(&changed, &by_key(20, 2), &[1, 0, 1, 0]);
            let (translation, _) = translated(&changed, 16_384);
            match read_table(&changed) {
                Ok(_) => {
                    good += 1;
                    assert!([0, 8, 11].contains(&decision.answer.number));
                    assert!([0, 8, 12].contains(&checked.number));
                    assert_eq!(translation.number, 0);
                    // The checker accepts only what is granted.
                    assert!(checked.number != 0 || decision.answer.number == 0);
                }
                Err(fault) => {
                    faulty += 1;
                    assert!((2..=7).contains(&fault.number));
                    assert!((at..=T.len()).contains(&(fault.offset as usize)));
                    assert_eq!(decision.answer, fault.into());
                    assert_eq!(checked, fault.into());
                    assert_eq!(translation, fault.into());
                    assert!(decision.touched_nothing());
                }
            }
        }
    }
    assert_eq!(good + faulty, 59 * 256);
    assert!(good > 59 && faulty > 59 * 128);
}
