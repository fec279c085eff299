//! Stand-in for the crate dashmap: an ordered map, so its entries come in rising order of the keys.

use rayon::Sequential;
use std::cell::{Ref as Shared, RefCell, RefMut as Exclusive};
use std::collections::BTreeMap;
use std::marker::PhantomData;

/// The map; the hasher `S` is only named.
pub struct DashMap<K, V, S = ()> {
    map: RefCell<BTreeMap<K, V>>,
    hasher: PhantomData<S>,
}

impl<K, V, S> Default for DashMap<K, V, S> {
    fn default() -> Self {
        DashMap { map: RefCell::new(BTreeMap::new()), hasher: PhantomData }
    }
}

impl<K: Ord + Copy, V, S> DashMap<K, V, S> {
    /// The entry of `key`.
    pub fn entry(&self, key: K) -> Entry<'_, K, V> {
        Entry { map: self.map.borrow_mut(), key }
    }

    /// All entries, in rising order of the keys.
    pub fn par_iter(&self) -> Sequential<impl Iterator<Item = Ref<'_, K, V>>> {
        let keys: Vec<K> = self.map.borrow().keys().copied().collect();
        Sequential(
            keys.into_iter()
                .map(|key| Ref { key, value: Shared::map(self.map.borrow(), |map| &map[&key]) }),
        )
    }
}

/// A key and its place in the map.
pub struct Entry<'a, K, V> {
    map: Exclusive<'a, BTreeMap<K, V>>,
    key: K,
}

impl<'a, K: Ord, V: Default> Entry<'a, K, V> {
    /// The value, the default put in first where there is none.
    pub fn or_default(self) -> Exclusive<'a, V> {
        Exclusive::map(self.map, |map| map.entry(self.key).or_default())
    }
}

/// A key and its value, to be read.
pub struct Ref<'a, K, V> {
    key: K,
    value: Shared<'a, V>,
}

impl<K, V> Ref<'_, K, V> {
    /// The key.
    pub fn key(&self) -> &K {
        &self.key
    }

    /// The value.
    pub fn value(&self) -> &V {
        &self.value
    }
}
