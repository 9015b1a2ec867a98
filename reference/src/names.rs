//! Names: what they mean, by the rules for names and nothing else.

use std::collections::HashMap;

use crate::table::{Key, Space, Table, Target};

/// What the names of a table mean, as far as its bindings have been opened.
pub struct Names<'a> {
    table: &'a Table,
    /// The space that has a key as its SELF key.
    space_with: HashMap<Key, Space>,
    /// The number of the binding of a base name in a space.
    binding_of: HashMap<(Space, u32), usize>,
    /// The key that the target of an opened binding means.
    meanings: HashMap<usize, Key>,
    /// The opened bindings, each after those its target needs.
    order: Vec<usize>,
}

impl<'a> Names<'a> {
    /// The names with no binding opened.
    fn closed(table: &'a Table) -> Names<'a> {
        let mut space_with = HashMap::new();
        for (number, key) in table.spaces.iter().enumerate() {
            space_with.insert(*key, Space(number));
        }
        let mut binding_of = HashMap::new();
        for (number, binding) in table.bindings.iter().enumerate() {
            binding_of.insert((binding.space, binding.base_name), number);
        }
        Names {
            table,
            space_with,
            binding_of,
            meanings: HashMap::new(),
            order: Vec::new(),
        }
    }

    /// The names with every binding opened that has a meaning.
    ///
    /// "These rules, and nothing else, give meanings; a name that no finite
    /// use of them reaches has none." So: use them until nothing new comes.
    pub fn of(table: &'a Table) -> Names<'a> {
        let mut names = Names::closed(table);
        loop {
            let before = names.order.len();
            for binding in 0..table.bindings.len() {
                names.open(binding);
            }
            if names.order.len() == before {
                return names;
            }
        }
    }

    /// The names with the listed bindings opened in this order, if "each
    /// listed binding's target gets its meaning from bindings listed before
    /// it".
    pub fn listed(table: &'a Table, list: &[usize]) -> Option<Names<'a>> {
        let mut names = Names::closed(table);
        for &binding in list {
            if !names.open(binding) {
                return None;
            }
        }
        Some(names)
    }

    /// Opens a binding if its target has a meaning by now; says whether it is
    /// open.
    fn open(&mut self, binding: usize) -> bool {
        if self.meanings.contains_key(&binding) {
            return true;
        }
        let Some(record) = self.table.bindings.get(binding) else {
            return false;
        };
        let Some(key) = self.target(&record.target) else {
            return false;
        };
        self.meanings.insert(binding, key);
        self.order.push(binding);
        true
    }

    /// The key a target means.
    pub fn target(&self, target: &Target) -> Option<Key> {
        match target {
            // "A key as a target means itself."
            Target::Key(key) => Some(*key),
            Target::Name(space, path) => self.path(*space, path),
        }
    }

    /// The key a path in a space means.
    pub fn path(&self, space: Space, path: &[u32]) -> Option<Key> {
        self.follow(space, path).map(|(key, _)| key)
    }

    /// The bindings that a target's meaning uses directly, if it has one.
    pub fn used_by_target(&self, target: &Target) -> Vec<usize> {
        match target {
            Target::Key(_) => Vec::new(),
            Target::Name(space, path) => self.used_by_path(*space, path),
        }
    }

    /// The bindings that a path's meaning uses directly, if it has one.
    pub fn used_by_path(&self, space: Space, path: &[u32]) -> Vec<usize> {
        self.follow(space, path)
            .map(|(_, used)| used)
            .unwrap_or_default()
    }

    /// The key a path in a space means, and the bindings met on the way.
    fn follow(&self, space: Space, path: &[u32]) -> Option<(Key, Vec<usize>)> {
        // "The empty path in space S means the SELF key of S."
        let mut key = *self.table.spaces.get(space.0)?;
        let mut used = Vec::new();
        // "Path p followed by b, in S: if p in S means the SELF key of a space
        // T, and T binds b to a key, the name means that key; if T binds b to
        // a name that means k, it means k."
        for &base_name in path {
            let space = *self.space_with.get(&key)?;
            let binding = *self.binding_of.get(&(space, base_name))?;
            key = *self.meanings.get(&binding)?;
            used.push(binding);
        }
        Some((key, used))
    }

    /// The SELF key of a space.
    pub fn self_key(&self, space: Space) -> Option<Key> {
        self.table.spaces.get(space.0).copied()
    }

    /// The space that has this key as its SELF key.
    pub fn space_with(&self, key: Key) -> Option<Space> {
        self.space_with.get(&key).copied()
    }

    /// The opened bindings, each after those its target needs.
    pub fn order(&self) -> &[usize] {
        &self.order
    }

    /// "one per binding: the key its target means, or 0."
    pub fn sheet(&self) -> Vec<u32> {
        let bindings = 0..self.table.bindings.len();
        bindings
            .map(|binding| self.meanings.get(&binding).map_or(0, |key| key.0))
            .collect()
    }
}
