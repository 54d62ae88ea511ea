//! Stand-in: a map that keeps the order of insertion, with a hash map beside it from a key to its position. Each
//! insertion also takes the next value of a counter that all maps of a thread share, so that the order of insertions
//! into several maps can be read back.

use std::cell::Cell;
use std::collections::HashMap;
use std::hash::{BuildHasher, Hash};

thread_local! {
    static NEXT: Cell<u64> = const { Cell::new(0) };
}

#[derive(Clone, Debug)]
pub struct Item<K, V> {
    pub key: K,
    pub value: V,
    pub stamp: u64,
}

#[derive(Clone, Debug)]
pub struct IndexMap<K, V, S> {
    items: Vec<Item<K, V>>,
    positions: HashMap<K, usize, S>,
}

impl<K, V, S: Default> Default for IndexMap<K, V, S> {
    fn default() -> Self {
        Self { items: Vec::new(), positions: HashMap::default() }
    }
}

impl<K: Copy + Eq + Hash, V, S: BuildHasher> IndexMap<K, V, S> {
    pub fn items(&self) -> &[Item<K, V>] {
        &self.items
    }

    pub fn get(&self, key: &K) -> Option<&V> {
        self.positions.get(key).map(|at| &self.items[*at].value)
    }

    pub fn entry(&mut self, key: K) -> map::Entry<'_, K, V, S> {
        match self.positions.get(&key) {
            Some(&at) => map::Entry::Occupied(map::OccupiedEntry { map: self, at }),
            None => map::Entry::Vacant(map::VacantEntry { map: self, key }),
        }
    }
}

pub mod map {
    use super::{BuildHasher, Hash, IndexMap, Item, NEXT};

    pub enum Entry<'a, K, V, S> {
        Occupied(OccupiedEntry<'a, K, V, S>),
        Vacant(VacantEntry<'a, K, V, S>),
    }

    pub struct OccupiedEntry<'a, K, V, S> {
        pub(crate) map: &'a mut IndexMap<K, V, S>,
        pub(crate) at: usize,
    }

    pub struct VacantEntry<'a, K, V, S> {
        pub(crate) map: &'a mut IndexMap<K, V, S>,
        pub(crate) key: K,
    }

    impl<'a, K, V, S> OccupiedEntry<'a, K, V, S> {
        pub fn get(&self) -> &V {
            &self.map.items[self.at].value
        }

        pub fn into_mut(self) -> &'a mut V {
            &mut self.map.items[self.at].value
        }
    }

    impl<'a, K: Copy + Eq + Hash, V, S: BuildHasher> VacantEntry<'a, K, V, S> {
        pub fn insert(self, value: V) -> &'a mut V {
            self.map.positions.insert(self.key, self.map.items.len());
            let stamp = NEXT.with(|n| n.replace(n.get() + 1));
            self.map.items.push(Item { key: self.key, value, stamp });
            &mut self.map.items.last_mut().unwrap().value
        }
    }
}
