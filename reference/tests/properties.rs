//! What holds for every case, over generated ones.

mod common;

use std::collections::{BTreeMap, BTreeSet};

use common::numbers;
use reference::access::{roots, steps};
use reference::cases::full::full;
use reference::cases::random::Random;
use reference::cases::tables::write_table;
use reference::cases::{kinds, make_case, read_cases, write_case, Case, Kind};
use reference::line::{answer_line, hash_of, numbers_of};
use reference::names::Names;
use reference::table::{Key, Target};
use reference::{
    check, decide, decide_by_keys, read_derivation, read_key_request, read_key_table, read_request,
    read_table, translate, Answer, Request,
};

fn cases(seed: u64, count: u64, kind: Kind) -> impl Iterator<Item = Case> {
    (0..count).map(move |index| make_case(seed, index, &[kind]))
}

/// What every decision keeps to, whatever it answers.
#[test]
fn decisions() {
    let mut answers: BTreeMap<u32, u32> = BTreeMap::new();
    let mut chains = BTreeSet::new();
    for case in cases(21, 6000, Kind::Decide) {
        let [table, request, sheet_before, before] = &case.parts[..] else {
            panic!("a decision has four parts");
        };
        let sheet_before = numbers_of(sheet_before);
        let mut sheet = sheet_before.clone();
        let mut derivation = before.clone();
        let answer = decide(table, request, &mut sheet, &mut derivation);
        *answers.entry(answer.number).or_default() += 1;
        assert!(answer.number == 0 || (answer.depth, answer.length) == (0, 0));
        assert!((2..=7).contains(&answer.number) || answer.offset == 0);
        if (1..=9).contains(&answer.number) {
            assert_eq!(sheet, sheet_before);
            assert_eq!(&derivation, before);
            continue;
        }
        let read = read_table(table).expect("a decided table is good");
        let bindings = read.bindings.len();
        assert_eq!(sheet[..bindings], Names::of(&read).sheet());
        assert_eq!(sheet[bindings..], sheet_before[bindings..]);
        let length = answer.length as usize;
        assert_eq!(derivation[length..], before[length..]);
        if answer.number == 0 {
            let handed_out = &derivation[..length];
            let accepted = Answer::accepted(answer.depth);
            assert_eq!(check(table, request, handed_out), accepted);
            let read = read_derivation(handed_out).expect("it is well formed");
            chains.insert(read.delegations.len() + 1);
            every_listed_binding_is_needed(table, request, handed_out);
        }
    }
    // Long is rare; every other refusal of the decision shows, save Overrun,
    // which no table reaches.
    for number in [0, 2, 3, 4, 5, 6, 7, 8, 9, 10, 11] {
        let count = answers.get(&number).copied().unwrap_or(0);
        assert!(count > 10, "answer {number}: {count}");
    }
    assert!(!answers.contains_key(&12) && !answers.contains_key(&13));
    assert_eq!(chains, (1..=16).collect());
}

/// Without any one of its bindings the derivation does not hold.
fn every_listed_binding_is_needed(table: &[u8], request: &[u8], derivation: &[u8]) {
    let whole = read_derivation(derivation).expect("it is well formed");
    // The long ones are tried at a few places only.
    let step = 1 + whole.bindings.len() / 20;
    for left_out in (0..whole.bindings.len()).step_by(step) {
        let mut less = whole.clone();
        less.bindings.remove(left_out);
        let bytes = reference::derivation::write_derivation(&less);
        assert_eq!(check(table, request, &bytes), Answer::refused(12));
    }
}

/// "Key rules are the same with every name replaced by its key".
#[test]
fn translation_changes_nothing() {
    let (mut granted, mut denied) = (0, 0);
    for case in cases(22, 5000, Kind::Decide) {
        let [table, request, ..] = &case.parts[..] else {
            panic!("a decision has four parts");
        };
        let decision = decide(table, request, &mut [0; 256], &mut [0; 512]);
        if ![0, 10, 11].contains(&decision.number) {
            continue;
        }
        let mut key_table = vec![0; 16_384];
        let translation = translate(table, &mut key_table);
        assert_eq!((translation.number, translation.depth), (0, 0));
        key_table.truncate(translation.length as usize);
        let read = read_table(table).expect("a decided table is good");
        let asked = read_request(&read, request).expect("a decided request is good");
        let Some(Key(subject)) = Names::of(&read).target(&asked.subject) else {
            assert_eq!(decision.number, 10);
            continue;
        };
        let Key(owner) = read.spaces[asked.owner.0];
        let key_request = numbers(&[subject, owner, asked.object, asked.right]);
        let by_keys = decide_by_keys(&key_table, &key_request);
        let expected = Answer {
            length: 0,
            ..decision
        };
        assert_eq!(by_keys, expected);
        match decision.number {
            0 => granted += 1,
            _ => denied += 1,
        }
    }
    assert!(granted > 1000 && denied > 1000, "{granted} {denied}");
}

/// What the checker accepts is granted, at that depth or a greater one.
#[test]
fn acceptances_are_grants() {
    let (mut accepted, mut lower, mut refused) = (0, 0, 0);
    for case in cases(23, 5000, Kind::Check) {
        let [table, request, derivation] = &case.parts[..] else {
            panic!("a check has three parts");
        };
        let checked = check(table, request, derivation);
        assert_eq!(checked.length, 0);
        match checked.number {
            0 => accepted += 1,
            12 => refused += 1,
            _ => continue,
        }
        if checked.number == 0 {
            let decision = decide(table, request, &mut [0; 256], &mut [0; 512]);
            assert_eq!(decision.number, 0);
            assert!(decision.depth >= checked.depth);
            lower += u32::from(decision.depth > checked.depth);
        }
    }
    assert!(accepted > 1000 && refused > 1000, "{accepted} {refused}");
    assert!(lower > 50, "{lower}");
}

/// The answers each kind of case may have, and all of them are met.
#[test]
fn listed_answers_only() {
    let mut met: BTreeMap<Kind, BTreeSet<u32>> = BTreeMap::new();
    for kind in kinds::ALL {
        for case in cases(24, 3000, kind) {
            let line = answer_line(&case);
            let number = line.split(' ').next().and_then(|word| word.parse().ok());
            let number = number.expect("a line begins with the answer's number");
            met.entry(kind).or_default().insert(number);
        }
    }
    let expected: [(Kind, &[u32]); 9] = [
        (Kind::ReadTable, &[0, 1, 2, 3, 4, 5, 6, 7]),
        (Kind::ReadRequest, &[0, 2, 3, 4, 5, 6, 7, 8]),
        (Kind::ReadDerivation, &[0, 12]),
        (Kind::ReadKeyTable, &[0, 1, 2, 3, 4, 6, 7]),
        (Kind::ReadKeyRequest, &[0, 8]),
        (Kind::Decide, &[0, 2, 3, 4, 5, 6, 7, 8, 9, 10, 11]),
        (Kind::Check, &[0, 2, 3, 4, 5, 6, 7, 8, 12]),
        (Kind::Translate, &[0, 2, 3, 4, 5, 6, 7, 9]),
        (Kind::DecideByKeys, &[0, 1, 2, 3, 4, 6, 7, 8, 11]),
    ];
    for (kind, numbers) in expected {
        let mut met = met.remove(&kind).unwrap_or_default();
        // Long is rare where tables are one part of many.
        if !numbers.contains(&1) {
            met.remove(&1);
        }
        assert_eq!(met, numbers.iter().copied().collect(), "{kind:?}");
    }
}

/// Tables of full size are full, and in some of them everything is about one
/// request.
#[test]
fn full_tables() {
    let (mut all, mut none_left_out) = (0, 0);
    for index in 0..60 {
        let mut random = Random::of(26, index);
        let scene = full(&mut random);
        let table = &scene.table;
        assert_eq!((table.spaces.len(), table.bindings.len()), (64, 256));
        let records = (table.access_records.len(), table.delegations.len());
        assert_eq!(records, (256, 512));
        assert_eq!(read_table(&write_table(table)).as_ref(), Ok(table));
        let request = Request {
            subject: Target::Key(Key(1)),
            owner: scene.owner.expect("it has an owner"),
            object: scene.object,
            right: scene.right,
        };
        let names = Names::of(table);
        let steps = steps(table, &names, &request).len();
        all += u32::from(roots(table, &names, &request).len() == 256 && steps > 480);
        none_left_out += u32::from(steps == 512);
    }
    assert!(all > 20 && none_left_out > 5, "{all} {none_left_out}");
}

/// Any bytes, any buffer lengths: an answer, never a panic.
#[test]
fn every_function_answers_any_bytes() {
    let mut random = Random::of(25, 0);
    for _ in 0..3000 {
        let length = random.one_of([0, 1, 5, 30, 70, 600, 20_000, 33_000]);
        let any = random.bytes(length);
        let length = random.count(0, 70);
        let other = random.bytes(length);
        let sheet = random.count(0, 300);
        let buffer = random.count(0, 600);
        let table = common::T;
        for table in [&table[..], &any[..]] {
            let decision = common::decide_with(table, &other, sheet, buffer);
            assert!(decision.answer.number <= 11);
            assert!(check(table, &other, &any).number <= 12);
            assert!(translate(table, &mut vec![0; buffer]).number <= 9);
            assert!(decide_by_keys(table, &other).number <= 11);
        }
        let _ = read_derivation(&any);
        let _ = read_key_table(&any);
        let _ = read_key_request(&other);
        if let Ok(table) = read_table(&common::T) {
            let _ = read_request(&table, &other);
        }
    }
    // Far past every limit.
    let huge = vec![1; 1 << 20];
    let long = Answer::refused(1);
    assert_eq!(common::decide_in_full(&huge, &huge).answer, long);
    assert_eq!(check(&huge, &huge, &huge), long);
    assert_eq!(translate(&huge, &mut []), long);
    assert_eq!(decide_by_keys(&huge, &huge), long);
    assert_eq!(check(&common::T, &huge, &huge), Answer::refused(8));
    let request = [0, 20, 0, 7, 2];
    assert_eq!(check(&common::T, &request, &huge), Answer::refused(12));
}

/// The same seed gives the same cases on every machine. Whoever changes the
/// making of cases changes this hash.
#[test]
fn the_cases_of_a_seed() {
    let mut bytes = Vec::new();
    for index in 0..500 {
        write_case(&mut bytes, &make_case(1, index, &kinds::ALL));
    }
    assert_eq!(hash_of(&bytes), "f30bf3a9");
    let read = read_cases(&bytes).expect("it is a case file");
    assert_eq!(read.len(), 500);
    let mut again = Vec::new();
    for case in &read {
        write_case(&mut again, case);
    }
    assert!(bytes == again);
    assert!(make_case(1, 0, &kinds::ALL) != make_case(2, 0, &kinds::ALL));
}
