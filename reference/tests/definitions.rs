//! The build against the rules written out once more, as sets of facts, and
//! against every chain that can be tried.

use std::collections::{HashMap, HashSet};

use reference::access::find_chain;
use reference::cases::random::Random;
use reference::cases::requests::good_request;
use reference::cases::scenes::{good_scene, Scene};
use reference::check::depth_of_derivation;
use reference::names::Names;
use reference::table::{Key, Path, Space, Table, Target};
use reference::translate::replace_names;
use reference::{Derivation, Request};

/// Meanings by following each name to its end. A binding met again while it is
/// being followed has no meaning.
struct Followed<'a> {
    table: &'a Table,
    known: HashMap<usize, Option<Key>>,
}

impl<'a> Followed<'a> {
    fn new(table: &'a Table) -> Followed<'a> {
        Followed {
            table,
            known: HashMap::new(),
        }
    }

    fn target(&mut self, target: &Target) -> Option<Key> {
        match target {
            Target::Key(key) => Some(*key),
            Target::Name(space, path) => self.name(*space, path),
        }
    }

    /// The last name of the path is looked up where the rest of it leads.
    fn name(&mut self, space: Space, path: &[u32]) -> Option<Key> {
        let Some((last, before)) = path.split_last() else {
            return Some(self.table.spaces[space.0]);
        };
        let key = self.name(space, before)?;
        let place = self.table.spaces.iter().position(|k| *k == key)?;
        let bindings = &self.table.bindings;
        let number = bindings
            .iter()
            .position(|b| b.space == Space(place) && b.base_name == *last)?;
        self.binding(number)
    }

    fn binding(&mut self, number: usize) -> Option<Key> {
        if let Some(known) = self.known.get(&number) {
            return *known;
        }
        // While it is being followed it has no meaning.
        self.known.insert(number, None);
        let table = self.table;
        let meaning = self.target(&table.bindings[number].target);
        self.known.insert(number, meaning);
        meaning
    }
}

/// Whether a name has access at a depth: facts, added until none is new.
type Facts = HashSet<(Space, Path, u32)>;

fn facts(table: &Table, names: &mut Followed, request: &Request) -> Facts {
    let mut facts = Facts::new();
    loop {
        let mut new = Vec::new();
        for record in &table.access_records {
            if (record.owner, record.object, record.right) == asked(request) {
                new.push((record.owner, record.path.clone(), record.depth));
            }
        }
        for (space, path, depth) in &facts {
            if *depth > 0 {
                new.push((*space, path.clone(), depth - 1));
                new.extend(delegated(table, names, request, (*space, path, *depth)));
            }
        }
        let before = facts.len();
        facts.extend(new);
        if facts.len() == before {
            return facts;
        }
    }
}

fn asked(request: &Request) -> (Space, u32, u32) {
    (request.owner, request.object, request.right)
}

/// What one name with access at `depth`, 1 or more, gives by delegation.
fn delegated(
    table: &Table,
    names: &mut Followed,
    request: &Request,
    (space, path, depth): (Space, &Path, u32),
) -> Vec<(Space, Path, u32)> {
    let mut new = Vec::new();
    let Some(key) = names.name(space, path) else {
        return new;
    };
    for delegation in &table.delegations {
        let writer = delegation.writer;
        let owner = names.name(writer, &delegation.owner_path);
        if table.spaces[writer.0] == key
            && delegation.object == request.object
            && delegation.right == request.right
            && owner == Some(table.spaces[request.owner.0])
            && delegation.depth >= depth - 1
        {
            new.push((writer, delegation.delegatee_path.clone(), depth - 1));
        }
    }
    new
}

/// The greatest depth by facts; outside, whether the subject has a meaning.
fn decided_by_facts(table: &Table, request: &Request) -> Option<Option<u32>> {
    let mut names = Followed::new(table);
    let subject = names.target(&request.subject)?;
    let facts = facts(table, &mut names, request);
    let depths = facts
        .iter()
        .filter(|(space, path, _)| names.name(*space, path) == Some(subject))
        .map(|(_, _, depth)| *depth);
    Some(depths.max())
}

/// The same by the build.
fn decided_by_build(table: &Table, request: &Request) -> Option<Option<u32>> {
    let names = Names::of(table);
    let subject = names.target(&request.subject)?;
    Some(find_chain(table, &names, request, subject).map(|chain| chain.depth))
}

/// Scenes that have a space, from one seed.
fn scenes(seed: u64, count: u64) -> impl Iterator<Item = (Random, Scene)> {
    (0..count).filter_map(move |index| {
        let mut random = Random::of(seed, index);
        let scene = good_scene(&mut random);
        (!scene.table.spaces.is_empty()).then_some((random, scene))
    })
}

#[test]
fn the_sheet_is_what_following_finds() {
    let (mut with, mut without) = (0, 0);
    for (_, scene) in scenes(11, 3000) {
        let mut followed = Followed::new(&scene.table);
        let sheet = Names::of(&scene.table).sheet();
        assert_eq!(sheet.len(), scene.table.bindings.len());
        for (number, key) in sheet.into_iter().enumerate() {
            assert_eq!(followed.binding(number).map_or(0, |key| key.0), key);
            match key {
                0 => without += 1,
                _ => with += 1,
            }
        }
    }
    assert!(with > 10_000 && without > 3_000, "{with} {without}");
}

#[test]
fn the_decision_is_what_the_facts_say() {
    let mut counts = [0; 3];
    let mut depths = HashSet::new();
    for (mut random, scene) in scenes(12, 2500) {
        // Full-size tables have too many facts to be written out plainly.
        if scene.table.delegations.len() > 150 {
            continue;
        }
        let request = good_request(&mut random, &scene);
        let facts = decided_by_facts(&scene.table, &request);
        assert_eq!(decided_by_build(&scene.table, &request), facts);
        match facts {
            None => counts[0] += 1,
            Some(None) => counts[1] += 1,
            Some(Some(depth)) => {
                counts[2] += 1;
                depths.insert(depth);
            }
        }
    }
    assert!(counts.iter().all(|&count| count > 100), "{counts:?}");
    assert_eq!(depths.len(), 16);
}

#[test]
fn the_translation_is_what_following_finds() {
    let (mut kept, mut omitted) = (0, 0);
    for (_, scene) in scenes(13, 1500) {
        let table = &scene.table;
        let mut names = Followed::new(table);
        let key_table = replace_names(table);
        let mut access_records = key_table.access_records.iter();
        for record in &table.access_records {
            let Some(subject) = names.name(record.owner, &record.path) else {
                omitted += 1;
                continue;
            };
            kept += 1;
            let owner = table.spaces[record.owner.0];
            let written = access_records.next().expect("a record is missing");
            assert_eq!((written.owner, written.subject), (owner, subject));
            assert_eq!(
                (written.object, written.right, written.depth),
                (record.object, record.right, record.depth)
            );
        }
        assert_eq!(access_records.next(), None);
        let mut delegations = key_table.delegations.iter();
        for record in &table.delegations {
            let writer = record.writer;
            let owner = names.name(writer, &record.owner_path);
            let delegatee = names.name(writer, &record.delegatee_path);
            let (Some(owner), Some(delegatee)) = (owner, delegatee) else {
                omitted += 1;
                continue;
            };
            kept += 1;
            let written = delegations.next().expect("a record is missing");
            assert_eq!(written.writer, table.spaces[writer.0]);
            assert_eq!((written.owner, written.delegatee), (owner, delegatee));
            assert_eq!(
                (written.object, written.right, written.depth),
                (record.object, record.right, record.depth)
            );
        }
        assert_eq!(delegations.next(), None);
    }
    assert!(kept > 3000 && omitted > 500, "{kept} {omitted}");
}

/// The scene with depths of 3 at the most and few records, so that every chain
/// can be tried.
fn shrunk(mut scene: Scene) -> Scene {
    let table = &mut scene.table;
    table.access_records.truncate(4);
    table.delegations.truncate(6);
    for record in &mut table.access_records {
        record.depth %= 4;
    }
    for record in &mut table.delegations {
        record.depth %= 4;
    }
    scene
}

/// The greatest depth of any chain that the checker accepts with every binding
/// listed that has a meaning.
fn best_of_all_chains(table: &Table, request: &Request) -> Option<u32> {
    let bindings = Names::of(table).order().to_vec();
    let mut best = None;
    let mut chains = vec![Vec::new()];
    // A depth of 3 allows three delegations: a fourth must be refused.
    for length in 0..=4 {
        for delegations in &chains {
            for access_record in 0..table.access_records.len() {
                let derivation = Derivation {
                    bindings: bindings.clone(),
                    access_record,
                    delegations: delegations.clone(),
                };
                let depth = depth_of_derivation(table, request, &derivation);
                assert!(depth.is_none() || length < 4);
                best = best.max(depth);
            }
        }
        // The last length is tried with one delegation repeated only.
        let next = 0..table.delegations.len();
        let longer = |chain: &Vec<usize>, number: usize| [&chain[..], &[number]].concat();
        chains = chains
            .iter()
            .flat_map(|chain| next.clone().map(move |number| longer(chain, number)))
            .filter(|chain| chain.len() < 4 || chain.windows(2).all(|two| two[0] == two[1]))
            .collect();
    }
    best
}

#[test]
fn the_decision_is_the_best_of_all_chains() {
    let (mut granted, mut refused, mut by_delegation) = (0, 0, 0);
    for (mut random, scene) in scenes(14, 1500) {
        if scene.table.bindings.len() > 40 {
            continue;
        }
        let scene = shrunk(scene);
        let request = good_request(&mut random, &scene);
        let best = best_of_all_chains(&scene.table, &request);
        let build = decided_by_build(&scene.table, &request).flatten();
        assert_eq!(build, best);
        match best {
            Some(_) => granted += 1,
            None => refused += 1,
        }
        let names = Names::of(&scene.table);
        let chain = names
            .target(&request.subject)
            .and_then(|subject| find_chain(&scene.table, &names, &request, subject));
        if chain.is_some_and(|chain| !chain.delegations.is_empty()) {
            by_delegation += 1;
        }
    }
    assert!(granted > 300 && refused > 300, "{granted} {refused}");
    assert!(by_delegation > 100, "{by_delegation}");
}
