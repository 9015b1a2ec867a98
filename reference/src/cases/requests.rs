//! Requests, good and damaged, and the parts of decisions.

use super::damage::{damaged, stretch};
use super::marks::Marks;
use super::random::Random;
use super::scenes::{self, good_scene, Scene};
use super::tables::{damaged_table, neighbour, write_table};
use super::{buffers, webs};
use crate::access::{greatest_depths, roots, steps};
use crate::limits;
use crate::names::Names;
use crate::request::Request;
use crate::table::{Key, Space, Target};

/// A table and a request, the request damaged more often than not.
pub fn table_and_request(random: &mut Random) -> Vec<Vec<u8>> {
    let scene = good_scene(random);
    let table = if random.chance(93) {
        write_table(&scene.table)
    } else {
        damaged_table(random)
    };
    let request = if random.chance(40) {
        write_request(&good_request(random, &scene))
    } else {
        damaged_request(random, &scene)
    };
    vec![table, request]
}

/// A table, a request, a sheet and a derivation buffer.
pub fn decide_parts(random: &mut Random) -> Vec<Vec<u8>> {
    let scene = good_scene(random);
    let request = if random.chance(92) {
        write_request(&good_request(random, &scene))
    } else {
        damaged_request(random, &scene)
    };
    let table = match random.below(100) {
        0..=6 => damaged_table(random),
        7..=12 => write_table(&neighbour(random, &scene.table)),
        _ => write_table(&scene.table),
    };
    vec![
        table,
        request,
        buffers::sheet(random),
        buffers::derivation(random),
    ]
}

/// The bytes of a request.
pub fn write_request(request: &Request) -> Vec<u8> {
    Marks::of_request(request).bytes()
}

/// A request that reads well with the scene's table, if that has a space.
pub fn good_request(random: &mut Random, scene: &Scene) -> Request {
    let owner = match scene.owner {
        Some(owner) if random.chance(93) => owner,
        _ => any_space(random, scene),
    };
    let object = if random.chance(95) {
        scene.object
    } else {
        scenes::object(random)
    };
    let right = if random.chance(95) {
        scene.right
    } else {
        scenes::right(random)
    };
    let mut request = Request {
        subject: Target::Key(Key(1)),
        owner,
        object,
        right: right.max(1),
    };
    request.subject = subject(random, scene, &request);
    request
}

/// A subject: one with access as a rule, by its key or by a name.
fn subject(random: &mut Random, scene: &Scene, request: &Request) -> Target {
    let names = Names::of(&scene.table);
    let space = any_space(random, scene);
    let stranger = Key(random.between(1, limits::GREATEST_KEY));
    let key = match random.below(100) {
        0..=44 => key_with_access(random, scene, &names, request),
        45..=64 => scene.subject,
        65..=72 => random.pick(&scene.table.spaces),
        73..=74 => Some(stranger),
        75..=82 => return dead_name_from_table(random, scene, &names),
        83..=88 => return Target::Name(space, any_path_of(random, scene)),
        _ => None,
    };
    match key {
        Some(key) if random.chance(50) => Target::Key(key),
        Some(key) => named(random, scene, &names, key),
        None => {
            let path = scenes::live_path(random, &scene.table, &names, space);
            Target::Name(space, path)
        }
    }
}

fn any_space(random: &mut Random, scene: &Scene) -> Space {
    Space(random.place(scene.table.spaces.len()))
}

/// A path of base names that the table's bindings have.
fn any_path_of(random: &mut Random, scene: &Scene) -> Vec<u32> {
    let bindings = scene.table.bindings.iter();
    let base_names: Vec<u32> = bindings.map(|binding| binding.base_name).collect();
    scenes::any_path(random, &base_names)
}

/// One of the keys that have access, as a rule one that no access record
/// gives it.
fn key_with_access(
    random: &mut Random,
    scene: &Scene,
    names: &Names,
    request: &Request,
) -> Option<Key> {
    let roots = roots(&scene.table, names, request);
    let steps = steps(&scene.table, names, request);
    let depths = greatest_depths(&roots, &steps);
    let mut keys: Vec<Key> = depths.into_keys().collect();
    keys.sort();
    let mut delegated = keys.clone();
    delegated.retain(|key| !roots.iter().any(|root| root.key == *key));
    match random.pick(&delegated) {
        Some(key) if random.chance(75) => Some(key),
        _ => random.pick(&keys),
    }
}

/// A name of this key in some space, or else the key.
pub fn named(random: &mut Random, scene: &Scene, names: &Names, key: Key) -> Target {
    for _ in 0..6 {
        let space = any_space(random, scene);
        if let Some(path) = scenes::path_to(random, &scene.table, names, space, key) {
            return Target::Name(space, path);
        }
    }
    Target::Key(key)
}

/// A name that a record uses though it means nothing, if there is one: two
/// dead names must not meet.
fn dead_name_from_table(random: &mut Random, scene: &Scene, names: &Names) -> Target {
    let table = &scene.table;
    let mut dead = Vec::new();
    for record in &table.access_records {
        dead.push((record.owner, record.path.clone()));
    }
    for record in &table.delegations {
        dead.push((record.writer, record.delegatee_path.clone()));
    }
    for binding in &table.bindings {
        dead.push((binding.space, vec![binding.base_name]));
    }
    dead.retain(|(space, path)| names.path(*space, path).is_none());
    match random.pick(&dead) {
        Some((space, path)) => Target::Name(space, path),
        None => Target::Name(any_space(random, scene), any_path_of(random, scene)),
    }
}

/// The bytes of a request that is most likely faulty.
pub fn damaged_request(random: &mut Random, scene: &Scene) -> Vec<u8> {
    let mut request = good_request(random, scene);
    match random.below(20) {
        0 => Vec::new(),
        1 | 2 => {
            // Written for another table.
            let other = webs::small(random);
            write_request(&good_request(random, &other))
        }
        3 => {
            request.owner = Space(scene.table.spaces.len());
            write_request(&request)
        }
        4 => {
            request.subject = Target::Name(Space(scene.table.spaces.len()), Vec::new());
            write_request(&request)
        }
        5 | 6 => {
            let mut bytes = write_request(&request);
            let length = random.one_of([63, 64, 65, 66, 300]);
            stretch(random, &mut bytes, length);
            bytes
        }
        7 => {
            let length = random.count(1, 24);
            random.bytes(length)
        }
        _ => damaged(random, &Marks::of_request(&request)),
    }
}
