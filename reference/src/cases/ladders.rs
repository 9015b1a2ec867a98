//! Ladders: tables with one long chain, and shorter and shallower ones that
//! compete with it.

use super::random::Random;
use super::scenes::{self, Scene};
use crate::limits;
use crate::table::{AccessRecord, Binding, Delegation, Key, Path, Space, Table, Target};

/// The names and spaces of a ladder.
struct Ladder {
    table: Table,
    owner: Space,
    /// The spaces of the chain, the first one after the owner first.
    rungs: Vec<Space>,
    /// The key at the end of the chain.
    end: Key,
    /// What each rung calls the next one.
    next: u32,
    /// What each rung calls the owner.
    owner_name: u32,
    object: u32,
    right: u32,
}

/// A ladder of up to 16 rungs with competing chains.
pub fn ladder(random: &mut Random) -> Scene {
    let rungs = match random.below(10) {
        0 | 1 => random.count(14, 16),
        2 | 3 => random.count(7, 13),
        _ => random.count(1, 6),
    };
    let mut ladder = lay_rungs(random, rungs);
    bind_names(random, &mut ladder);
    write_chain(random, &mut ladder);
    write_shortcuts(random, &mut ladder);
    write_noise(random, &mut ladder);
    order_records(random, &mut ladder.table);
    Scene {
        table: ladder.table,
        owner: Some(ladder.owner),
        object: ladder.object,
        right: ladder.right,
        subject: Some(ladder.end),
    }
}

/// The spaces: the owner, the rungs, and now and then one that is not on the
/// ladder.
fn lay_rungs(random: &mut Random, rungs: usize) -> Ladder {
    let others = random.count(0, 2);
    let count = rungs + 1 + others;
    let mut spaces = scenes::keys(random, count + 1);
    let stranger = spaces.pop().unwrap_or(Key(1));
    let mut numbers: Vec<Space> = (0..count).map(Space).collect();
    random.shuffle(&mut numbers);
    let owner = numbers[0];
    let end = if others > 0 && random.chance(60) {
        spaces[numbers[rungs + 1].0]
    } else {
        stranger
    };
    // Now and then the owner stands on its own ladder.
    if random.chance(10) {
        let rung = random.count(1, rungs);
        numbers[rung] = owner;
    }
    let base_names = scenes::base_names(random, 2);
    Ladder {
        table: Table {
            spaces,
            ..Table::default()
        },
        owner,
        rungs: numbers[1..=rungs].to_vec(),
        end,
        next: base_names[0],
        owner_name: base_names[1],
        object: scenes::object(random),
        right: scenes::right(random),
    }
}

/// Each rung names the next one and the owner; the owner names the first.
fn bind_names(random: &mut Random, ladder: &mut Ladder) {
    let first = ladder.rungs[0];
    let target = scenes::target_of(random, &ladder.table, first);
    bind(ladder, ladder.owner, ladder.next, target);
    for at in 0..ladder.rungs.len() {
        let rung = ladder.rungs[at];
        let target = match ladder.rungs.get(at + 1) {
            Some(&next) => scenes::target_of(random, &ladder.table, next),
            None => Target::Key(ladder.end),
        };
        bind(ladder, rung, ladder.next, target);
        let target = name_of_owner(random, ladder, at);
        bind(ladder, rung, ladder.owner_name, target);
    }
    random.shuffle(&mut ladder.table.bindings);
}

/// The owner itself, or what the rung before or after calls the owner.
fn name_of_owner(random: &mut Random, ladder: &Ladder, at: usize) -> Target {
    let other = match random.below(4) {
        0 => at
            .checked_sub(1)
            .and_then(|before| ladder.rungs.get(before)),
        1 if random.chance(20) => ladder.rungs.get(at + 1),
        _ => None,
    };
    match other {
        Some(&other) => Target::Name(other, vec![ladder.owner_name]),
        None => scenes::target_of(random, &ladder.table, ladder.owner),
    }
}

/// Binds a base name unless it is bound already.
fn bind(ladder: &mut Ladder, space: Space, base_name: u32, target: Target) {
    let bindings = &mut ladder.table.bindings;
    if bindings
        .iter()
        .any(|b| b.space == space && b.base_name == base_name)
    {
        return;
    }
    bindings.push(Binding {
        space,
        base_name,
        target,
    });
}

/// The chain itself: deep enough as a rule, now and then just so or too
/// shallow.
fn write_chain(random: &mut Random, ladder: &mut Ladder) {
    let rungs = ladder.rungs.len() as u32;
    let start = match random.below(10) {
        0..=4 => limits::GREATEST_DEPTH,
        5..=7 => rungs.min(limits::GREATEST_DEPTH),
        _ => scenes::depth(random),
    };
    let path = vec![ladder.next];
    list(ladder, path, start);
    for at in 0..ladder.rungs.len() {
        let needed = rungs - 1 - at as u32;
        let depth = match random.below(10) {
            0..=3 => limits::GREATEST_DEPTH,
            4..=6 => needed.min(limits::GREATEST_DEPTH),
            7 | 8 => random.between(needed.min(limits::GREATEST_DEPTH), limits::GREATEST_DEPTH),
            _ => scenes::depth(random),
        };
        let path = vec![ladder.next];
        delegate(ladder, at, path, depth);
    }
}

/// Access records and delegations that pass over rungs, most of them at small
/// depths.
fn write_shortcuts(random: &mut Random, ladder: &mut Ladder) {
    for _ in 0..random.count(0, 4) {
        let path = climb(random, ladder);
        let depth = shallow(random);
        list(ladder, path, depth);
    }
    for _ in 0..random.count(0, 8) {
        let at = random.place(ladder.rungs.len());
        let path = climb(random, ladder);
        let depth = shallow(random);
        delegate(ladder, at, path, depth);
    }
}

/// The next rung's next rung, up to four names.
fn climb(random: &mut Random, ladder: &Ladder) -> Path {
    vec![ladder.next; random.count(1, 4)]
}

fn shallow(random: &mut Random) -> u32 {
    if random.chance(75) {
        random.between(0, 4)
    } else {
        scenes::depth(random)
    }
}

/// Records that look near but are about something else.
fn write_noise(random: &mut Random, ladder: &mut Ladder) {
    for _ in 0..random.count(0, 3) {
        let at = random.place(ladder.rungs.len());
        let path = climb(random, ladder);
        delegate(ladder, at, path, limits::GREATEST_DEPTH);
        let Some(noise) = ladder.table.delegations.last_mut() else {
            return;
        };
        match random.below(4) {
            0 => noise.object = scenes::object(random),
            1 => noise.right = scenes::right(random),
            2 => noise.owner_path = vec![ladder.next],
            _ => noise.owner_path = Path::new(),
        }
    }
    if random.chance(20) {
        let path = climb(random, ladder);
        list(ladder, path, limits::GREATEST_DEPTH);
        let other = Space(random.place(ladder.table.spaces.len()));
        if let Some(noise) = ladder.table.access_records.last_mut() {
            noise.owner = other;
        }
    }
}

fn list(ladder: &mut Ladder, path: Path, depth: u32) {
    ladder.table.access_records.push(AccessRecord {
        owner: ladder.owner,
        object: ladder.object,
        right: ladder.right,
        path,
        depth,
    });
}

fn delegate(ladder: &mut Ladder, at: usize, path: Path, depth: u32) {
    let writer = ladder.rungs[at];
    let owner_path = if writer == ladder.owner {
        Path::new()
    } else {
        vec![ladder.owner_name]
    };
    ladder.table.delegations.push(Delegation {
        writer,
        owner_path,
        object: ladder.object,
        right: ladder.right,
        delegatee_path: path,
        depth,
    });
}

/// As written, the other way round, or in any order.
fn order_records(random: &mut Random, table: &mut Table) {
    match random.below(3) {
        0 => {
            table.access_records.reverse();
            table.delegations.reverse();
        }
        1 => {
            random.shuffle(&mut table.access_records);
            random.shuffle(&mut table.delegations);
        }
        _ => {}
    }
}
