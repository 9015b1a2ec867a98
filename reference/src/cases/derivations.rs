//! Derivations, good and damaged, and the parts of checks.

use super::damage::{damaged, stretch};
use super::marks::Marks;
use super::random::Random;
use super::requests::{damaged_request, good_request, write_request};
use super::scenes::{good_scene, Scene};
use super::tables::{damaged_table, neighbour, write_table};
use super::walks::{stray, walk};
use crate::decide::find;
use crate::derivation::{write_derivation, Derivation};
use crate::limits;
use crate::names::Names;
use crate::request::Request;

/// A derivation for whatever table, damaged more often than not.
pub fn any_derivation(random: &mut Random) -> Vec<u8> {
    let derivation = if random.chance(50) {
        random_derivation(random)
    } else {
        let scene = good_scene(random);
        derived(random, &scene).1
    };
    match random.below(10) {
        0..=3 => write_derivation(&derivation),
        4 => stretched(random, &derivation),
        5 if random.chance(20) => Vec::new(),
        5 => {
            let length = random.count(1, 30);
            random.bytes(length)
        }
        _ => damaged(random, &Marks::of_derivation(&derivation)),
    }
}

/// A table, a request and a derivation.
pub fn check_parts(random: &mut Random) -> Vec<Vec<u8>> {
    let scene = good_scene(random);
    let (request, mut derivation) = derived(random, &scene);
    let change = random.below(100);
    if (45..80).contains(&change) {
        for _ in 0..random.count(1, 2) {
            change_derivation(random, &mut derivation, &scene);
        }
    }
    let derivation = match change {
        80..=86 => damaged(random, &Marks::of_derivation(&derivation)),
        87..=89 => stretched(random, &derivation),
        _ => write_derivation(&derivation),
    };
    let request = match change {
        90..=92 => damaged_request(random, &scene),
        93..=94 => write_request(&good_request(random, &scene)),
        _ => write_request(&request),
    };
    let table = match change {
        95..=97 => write_table(&neighbour(random, &scene.table)),
        98..=99 => damaged_table(random),
        _ => write_table(&scene.table),
    };
    vec![table, request, derivation]
}

/// A request with a derivation that holds or nearly holds, if one is easily
/// found.
fn derived(random: &mut Random, scene: &Scene) -> (Request, Derivation) {
    let names = Names::of(&scene.table);
    for _ in 0..6 {
        let request = good_request(random, scene);
        let walked = match random.below(100) {
            0..=19 => walk(random, scene, &names, &request),
            20..=44 => stray(random, scene, &names, &request),
            _ => None,
        };
        if let Some(walked) = walked {
            return walked;
        }
        if let Ok((derivation, _)) = find(&scene.table, &names, &request) {
            return (request, derivation);
        }
    }
    let request = good_request(random, scene);
    (request, random_derivation(random))
}

/// A derivation of any numbers, well formed unless its chain has 17 records.
fn random_derivation(random: &mut Random) -> Derivation {
    let mut bindings: Vec<usize> = (0..limits::BINDINGS as usize).collect();
    random.shuffle(&mut bindings);
    let count = random.one_of([0, 1, 3, 9, 255, 256]);
    bindings.truncate(count);
    let chain = random.one_of([1, 2, 3, 15, 16, 16, 17]);
    let most = random.one_of([3, 127, 128, limits::DELEGATIONS - 1]);
    let delegations = (1..chain)
        .map(|_| random.between(0, most) as usize)
        .collect();
    let record = random.between(0, most.min(limits::ACCESS_RECORDS - 1));
    Derivation {
        bindings,
        access_record: record as usize,
        delegations,
    }
}

/// Spare bytes up to the limit of a derivation, or one byte past it.
fn stretched(random: &mut Random, derivation: &Derivation) -> Vec<u8> {
    let mut bytes = write_derivation(derivation);
    let length = random.one_of([511, 512, 513, 600]);
    stretch(random, &mut bytes, length);
    bytes
}

/// Changes one thing in a derivation.
fn change_derivation(random: &mut Random, derivation: &mut Derivation, scene: &Scene) {
    match random.below(14) {
        0 | 1 => drop_one(random, &mut derivation.bindings),
        2 => double_one(random, &mut derivation.bindings),
        3 | 4 => swap_two(random, &mut derivation.bindings),
        5 => derivation.bindings.reverse(),
        6 => list_all(derivation, scene),
        7 => list_one_more(random, derivation, scene),
        8 => derivation.access_record = random.place(scene.table.access_records.len() + 1),
        9 | 10 => change_delegation(random, derivation, scene),
        11 => drop_one(random, &mut derivation.delegations),
        12 => double_one(random, &mut derivation.delegations),
        _ => lengthen_chain(random, derivation, scene),
    }
}

fn drop_one(random: &mut Random, numbers: &mut Vec<usize>) {
    let at = random.place(numbers.len());
    if at < numbers.len() {
        numbers.remove(at);
    }
}

fn double_one(random: &mut Random, numbers: &mut Vec<usize>) {
    let at = random.place(numbers.len() + 1);
    if let Some(number) = random.pick(numbers) {
        numbers.insert(at, number);
    }
}

fn swap_two(random: &mut Random, numbers: &mut [usize]) {
    let (one, other) = (random.place(numbers.len()), random.place(numbers.len()));
    if !numbers.is_empty() {
        numbers.swap(one, other);
    }
}

/// Every binding with a meaning: those not used do no harm.
fn list_all(derivation: &mut Derivation, scene: &Scene) {
    derivation.bindings = Names::of(&scene.table).order().to_vec();
}

/// A binding more, with a meaning or without, anywhere in the list.
fn list_one_more(random: &mut Random, derivation: &mut Derivation, scene: &Scene) {
    let more = random.place(scene.table.bindings.len() + 1);
    if derivation.bindings.contains(&more) {
        return;
    }
    let at = if random.chance(60) {
        derivation.bindings.len()
    } else {
        random.place(derivation.bindings.len() + 1)
    };
    derivation.bindings.insert(at, more);
}

fn change_delegation(random: &mut Random, derivation: &mut Derivation, scene: &Scene) {
    let at = random.place(derivation.delegations.len());
    let number = random.place(scene.table.delegations.len() + 1);
    if let Some(delegation) = derivation.delegations.get_mut(at) {
        *delegation = number;
    }
}

/// Up to a chain of 17: a delegation to oneself may stand in a chain often.
fn lengthen_chain(random: &mut Random, derivation: &mut Derivation, scene: &Scene) {
    let more = random
        .pick(&derivation.delegations)
        .unwrap_or_else(|| random.place(scene.table.delegations.len()));
    let length = random.one_of([1, 2, 15, 16]);
    while derivation.delegations.len() < length {
        derivation.delegations.push(more);
    }
}
