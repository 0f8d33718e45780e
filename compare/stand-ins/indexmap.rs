// Stand-in: this crate is not among the sources given. Written from document 01, for the comparison alone.
//! What the sources given use of the crate indexmap: a map and a set in order of insertion, as vectors.

use std::borrow::Borrow;

pub trait Equivalent<K: ?Sized> {
    fn equivalent(&self, key: &K) -> bool;
}

impl<Q: ?Sized + Eq, K: ?Sized + Borrow<Q>> Equivalent<K> for Q {
    fn equivalent(&self, key: &K) -> bool {
        self == key.borrow()
    }
}

#[derive(Clone, Debug, Eq, PartialEq)]
pub struct IndexMap<K, V> {
    pairs: Vec<(K, V)>,
}

impl<K, V> Default for IndexMap<K, V> {
    fn default() -> Self {
        Self { pairs: Vec::new() }
    }
}

impl<K: Eq, V> IndexMap<K, V> {
    pub fn new() -> Self {
        Self::default()
    }

    pub fn len(&self) -> usize {
        self.pairs.len()
    }

    pub fn is_empty(&self) -> bool {
        self.pairs.is_empty()
    }

    pub fn get<Q: ?Sized + Equivalent<K>>(&self, key: &Q) -> Option<&V> {
        self.iter().find(|(k, _)| key.equivalent(k)).map(|(_, v)| v)
    }

    pub fn get_index(&self, i: usize) -> Option<(&K, &V)> {
        self.pairs.get(i).map(|(k, v)| (k, v))
    }

    pub fn iter(&self) -> impl Iterator<Item = (&K, &V)> {
        self.pairs.iter().map(|(k, v)| (k, v))
    }

    pub fn entry(&mut self, key: K) -> map::Entry<'_, K, V> {
        match self.pairs.iter().position(|(k, _)| *k == key) {
            Some(index) => map::Entry::Occupied(map::OccupiedEntry { map: self, index }),
            None => map::Entry::Vacant(map::VacantEntry { map: self, key }),
        }
    }
}

impl<'a, K, V> IntoIterator for &'a IndexMap<K, V> {
    type Item = (&'a K, &'a V);
    type IntoIter = std::iter::Map<std::slice::Iter<'a, (K, V)>, fn(&'a (K, V)) -> (&'a K, &'a V)>;

    fn into_iter(self) -> Self::IntoIter {
        self.pairs.iter().map(|pair| (&pair.0, &pair.1))
    }
}

pub mod map {
    use super::IndexMap;

    pub enum Entry<'a, K, V> {
        Occupied(OccupiedEntry<'a, K, V>),
        Vacant(VacantEntry<'a, K, V>),
    }

    pub struct OccupiedEntry<'a, K, V> {
        pub(super) map: &'a mut IndexMap<K, V>,
        pub(super) index: usize,
    }

    pub struct VacantEntry<'a, K, V> {
        pub(super) map: &'a mut IndexMap<K, V>,
        pub(super) key: K,
    }

    impl<'a, K, V> Entry<'a, K, V> {
        pub fn or_insert_with<F: FnOnce() -> V>(self, call: F) -> &'a mut V {
            match self {
                Entry::Occupied(entry) => &mut entry.map.pairs[entry.index].1,
                Entry::Vacant(entry) => entry.insert(call()),
            }
        }
    }

    impl<K, V> OccupiedEntry<'_, K, V> {
        pub fn key(&self) -> &K {
            &self.map.pairs[self.index].0
        }
    }

    impl<'a, K, V> VacantEntry<'a, K, V> {
        pub fn index(&self) -> usize {
            self.map.pairs.len()
        }

        pub fn insert(self, value: V) -> &'a mut V {
            let index = self.index();
            self.map.pairs.push((self.key, value));
            &mut self.map.pairs[index].1
        }
    }
}

#[derive(Clone, Debug, Eq, PartialEq)]
pub struct IndexSet<T> {
    values: Vec<T>,
}

impl<T> Default for IndexSet<T> {
    fn default() -> Self {
        Self { values: Vec::new() }
    }
}

impl<T: Eq> IndexSet<T> {
    /// Whether the value was new.
    pub fn insert(&mut self, value: T) -> bool {
        let new = !self.values.contains(&value);
        if new {
            self.values.push(value);
        }
        new
    }

    pub fn iter(&self) -> impl Iterator<Item = &T> {
        self.values.iter()
    }
}
