//! Stand-in for `rustc_hash::FxHashMap`: std's BTreeMap, so that runs repeat.

use std::collections::BTreeMap;
use std::ops::{Deref, DerefMut};

#[derive(Debug, Clone)]
pub struct FxHashMap<K, V>(BTreeMap<K, V>);

impl<K, V> Default for FxHashMap<K, V> {
    fn default() -> Self {
        Self(BTreeMap::new())
    }
}

impl<K, V> FxHashMap<K, V> {
    pub fn drain(&mut self) -> std::collections::btree_map::IntoIter<K, V> {
        std::mem::take(&mut self.0).into_iter()
    }
}

impl<K, V> Deref for FxHashMap<K, V> {
    type Target = BTreeMap<K, V>;
    fn deref(&self) -> &Self::Target {
        &self.0
    }
}

impl<K, V> DerefMut for FxHashMap<K, V> {
    fn deref_mut(&mut self) -> &mut Self::Target {
        &mut self.0
    }
}

impl<'a, K, V> IntoIterator for &'a mut FxHashMap<K, V> {
    type Item = (&'a K, &'a mut V);
    type IntoIter = std::collections::btree_map::IterMut<'a, K, V>;
    fn into_iter(self) -> Self::IntoIter {
        self.0.iter_mut()
    }
}
