//! Access: who has it, at which greatest depth, and by which chain.

use std::collections::HashMap;

use crate::limits;
use crate::names::Names;
use crate::request::Request;
use crate::table::{Key, Table};

/// An access record that bears on a request, with the key its path means.
#[derive(Clone, Copy, Debug, PartialEq, Eq)]
pub struct Root {
    pub record: usize,
    pub key: Key,
    pub depth: u32,
}

/// A delegation that bears on a request, with the keys of its writer and of
/// its delegatee.
#[derive(Clone, Copy, Debug, PartialEq, Eq)]
pub struct Step {
    pub record: usize,
    pub writer: Key,
    pub delegatee: Key,
    pub depth: u32,
}

/// An access record and the delegations after it, with the depth they give.
#[derive(Clone, Debug, PartialEq, Eq)]
pub struct Chain {
    pub access_record: usize,
    pub delegations: Vec<usize>,
    pub depth: u32,
}

/// "Root: owner B's record with path p and depth d gives the name p in B
/// access at d."
///
/// "Only B's own records open B's objects." A path without meaning gives no
/// key, and nothing that follows can start from it.
pub fn roots(table: &Table, names: &Names, request: &Request) -> Vec<Root> {
    let mut roots = Vec::new();
    for (record, access) in table.access_records.iter().enumerate() {
        let asked = access.owner == request.owner
            && access.object == request.object
            && access.right == request.right;
        if !asked {
            continue;
        }
        if let Some(key) = names.path(access.owner, &access.path) {
            roots.push(Root {
                record,
                key,
                depth: access.depth,
            });
        }
    }
    roots
}

/// The delegations "for that object and right, whose owner path in A means
/// B's SELF key", A being the writer and B the owner asked for.
pub fn steps(table: &Table, names: &Names, request: &Request) -> Vec<Step> {
    let owner = names.self_key(request.owner);
    let mut steps = Vec::new();
    for (record, delegation) in table.delegations.iter().enumerate() {
        if delegation.object != request.object || delegation.right != request.right {
            continue;
        }
        let named = names.path(delegation.writer, &delegation.owner_path);
        if named.is_none() || named != owner {
            continue;
        }
        let writer = names.self_key(delegation.writer);
        let delegatee = names.path(delegation.writer, &delegation.delegatee_path);
        if let (Some(writer), Some(delegatee)) = (writer, delegatee) {
            steps.push(Step {
                record,
                writer,
                delegatee,
                depth: delegation.depth,
            });
        }
    }
    steps
}

/// "So a step from depth a, which must be 1 or more, by a delegation of depth
/// d gives the smaller of a − 1 and d."
pub fn depth_after(a: u32, d: u32) -> Option<u32> {
    let below = a.checked_sub(1)?;
    Some(below.min(d))
}

/// The greatest depth at which each key has access: use the rules until
/// nothing new comes.
pub fn greatest_depths(roots: &[Root], steps: &[Step]) -> HashMap<Key, u32> {
    let mut depths = HashMap::new();
    for root in roots {
        raise(&mut depths, root.key, root.depth);
    }
    loop {
        let mut changed = false;
        for step in steps {
            // "if a name has access at d+1 and means the SELF key of space A,
            // and A wrote a delegation at d ... then the delegatee path in A
            // has access at d."
            let Some(&a) = depths.get(&step.writer) else {
                continue;
            };
            if let Some(depth) = depth_after(a, step.depth) {
                changed |= raise(&mut depths, step.delegatee, depth);
            }
        }
        if !changed {
            return depths;
        }
    }
}

/// Notes access of a key at a depth; says whether that is new.
///
/// "Lowering: access at d+1 gives access at d": only the greatest is kept.
fn raise(depths: &mut HashMap<Key, u32>, key: Key, depth: u32) -> bool {
    let known = depths.get(&key).copied();
    if known.is_some_and(|known| known >= depth) {
        return false;
    }
    depths.insert(key, depth);
    true
}

/// A chain to the subject's key of the greatest depth, if there is any chain.
///
/// "A request is granted if a name with access and the subject mean one and
/// the same key."
pub fn find_chain(table: &Table, names: &Names, request: &Request, subject: Key) -> Option<Chain> {
    let roots = roots(table, names, request);
    let steps = steps(table, names, request);
    let depths = greatest_depths(&roots, &steps);
    let depth = *depths.get(&subject)?;
    let (access_record, delegations) = trace_back(&roots, &steps, &depths, subject, depth)?;
    Some(Chain {
        access_record,
        delegations,
        depth,
    })
}

/// The records by which a key got access at a depth, found from the end: an
/// access record that gives it, or a delegation and then how its writer got
/// access one above. The depth wanted grows by 1 a step, so 15 delegations
/// are the most.
fn trace_back(
    roots: &[Root],
    steps: &[Step],
    depths: &HashMap<Key, u32>,
    subject: Key,
    depth: u32,
) -> Option<(usize, Vec<usize>)> {
    let mut key = subject;
    let mut delegations = Vec::new();
    for wanted in depth..=limits::GREATEST_DEPTH {
        let root = roots
            .iter()
            .find(|root| root.key == key && root.depth >= wanted);
        if let Some(root) = root {
            delegations.reverse();
            return Some((root.record, delegations));
        }
        let step = steps.iter().find(|step| {
            let writer_has = depths.get(&step.writer).copied();
            step.delegatee == key && step.depth >= wanted && writer_has.is_some_and(|a| a > wanted)
        })?;
        delegations.push(step.record);
        key = step.writer;
    }
    None
}
