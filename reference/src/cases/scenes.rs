//! Scenes: good tables, and what most of their records are about.

use super::random::Random;
use super::{full, ladders, webs};
use crate::limits;
use crate::names::Names;
use crate::table::{Key, Path, Space, Table, Target};

/// A good table with the owner, object and right that most of its records are
/// about, and a subject worth asking for.
#[derive(Clone, Debug, Default)]
pub struct Scene {
    pub table: Table,
    pub owner: Option<Space>,
    pub object: u32,
    pub right: u32,
    pub subject: Option<Key>,
}

/// A good table of any sort.
pub fn good_scene(random: &mut Random) -> Scene {
    match random.below(100) {
        0..=2 => Scene::default(),
        3..=12 => webs::tiny(random),
        13..=52 => webs::small(random),
        53..=87 => ladders::ladder(random),
        88..=96 => webs::middling(random),
        _ => full::full(random),
    }
}

/// Distinct keys.
pub fn keys(random: &mut Random, count: usize) -> Vec<Key> {
    let style = random.below(4);
    let mut keys = Vec::new();
    while keys.len() < count {
        let next = keys.len() as u32 + 1;
        let key = match style {
            0 => Key(next),
            1 => Key(10 * next),
            2 => Key(random.between(1, limits::GREATEST_KEY)),
            _ => key_near_edge(random),
        };
        if !keys.contains(&key) {
            keys.push(key);
        }
    }
    random.shuffle(&mut keys);
    keys
}

/// A key where the number of its bytes changes, or a small one, or any.
fn key_near_edge(random: &mut Random) -> Key {
    let edge = random.one_of([7, 14, 21, 28]);
    let edge = 1_u32 << edge;
    let small = random.between(1, 150);
    let any = random.between(1, limits::GREATEST_KEY);
    Key(random.one_of([edge - 1, edge, limits::GREATEST_KEY, small, any]))
}

/// Distinct base names.
pub fn base_names(random: &mut Random, count: usize) -> Vec<u32> {
    let plain = random.chance(60);
    let mut names = Vec::new();
    while names.len() < count {
        let any = random.between(1, limits::GREATEST_BASE_NAME);
        let near_edge = random.one_of([1, 127, 128, 16_383, 16_384, 65_535, any]);
        let name = if plain {
            names.len() as u32 + 1
        } else {
            near_edge
        };
        if !names.contains(&name) {
            names.push(name);
        }
    }
    names
}

/// A depth: the ends of the row more often than the middle.
pub fn depth(random: &mut Random) -> u32 {
    match random.below(10) {
        0..=2 => limits::GREATEST_DEPTH,
        3 => limits::GREATEST_DEPTH - 1,
        4 => 0,
        5 => 1,
        _ => random.between(0, limits::GREATEST_DEPTH),
    }
}

/// An object: a common one, or the ends of the row.
pub fn object(random: &mut Random) -> u32 {
    random.one_of([7, 7, 8, 0, 127, 128, limits::GREATEST_OBJECT])
}

/// A right: a common one, or the ends of the row.
pub fn right(random: &mut Random) -> u32 {
    random.one_of([2, 2, 3, 1, limits::GREATEST_RIGHT])
}

/// Any path of these base names, with a meaning or without.
pub fn any_path(random: &mut Random, base_names: &[u32]) -> Path {
    let length = path_length(random);
    let stranger = random.between(1, limits::GREATEST_BASE_NAME);
    (0..length)
        .map(|_| {
            if random.chance(95) {
                random.pick(base_names).unwrap_or(stranger)
            } else {
                stranger
            }
        })
        .collect()
}

fn path_length(random: &mut Random) -> usize {
    match random.below(20) {
        0..=2 => 0,
        3..=10 => 1,
        11..=14 => 2,
        15..=17 => 3,
        _ => 4,
    }
}

/// A path in this space that has a meaning.
pub fn live_path(random: &mut Random, table: &Table, names: &Names, space: Space) -> Path {
    let mut path = Path::new();
    let mut at = Some(space);
    for _ in 0..path_length(random) {
        let Some(space) = at else {
            break;
        };
        let Some((base_name, key)) = random.pick(&live_bindings(table, names, space)) else {
            break;
        };
        path.push(base_name);
        at = names.space_with(key);
    }
    path
}

/// The base names bound in a space to something with a meaning, with the keys
/// they mean.
fn live_bindings(table: &Table, names: &Names, space: Space) -> Vec<(u32, Key)> {
    let in_space = table.bindings.iter().filter(|b| b.space == space);
    in_space
        .filter_map(|b| names.target(&b.target).map(|key| (b.base_name, key)))
        .collect()
}

/// A path in this space that means this key, if one is easily found.
pub fn path_to(
    random: &mut Random,
    table: &Table,
    names: &Names,
    space: Space,
    key: Key,
) -> Option<Path> {
    for _ in 0..8 {
        let path = live_path(random, table, names, space);
        if names.path(space, &path) == Some(key) {
            return Some(path);
        }
    }
    if names.self_key(space) == Some(key) {
        return Some(Path::new());
    }
    let live = live_bindings(table, names, space);
    let direct = live.iter().find(|(_, meant)| *meant == key);
    direct.map(|(base_name, _)| vec![*base_name])
}

/// A target that means this space's key: the key, or a name of it.
pub fn target_of(random: &mut Random, table: &Table, space: Space) -> Target {
    match table.spaces.get(space.0) {
        Some(&key) if random.chance(50) => Target::Key(key),
        _ => Target::Name(space, Path::new()),
    }
}
