//! Maps and sets whose growth can be refused.

use super::alloc::{AllocError, Global};
use std::borrow::Borrow;
use std::hash::Hash;

/// A map as Rust's, but for calls that take memory.
pub struct HashMap<K, V>(std::collections::HashMap<K, V>);

impl<K: Hash + Eq, V> HashMap<K, V> {
    /// A map without keys. It takes no memory.
    pub fn new(_alloc: Global) -> Self {
        HashMap(std::collections::HashMap::new())
    }

    /// Puts a value at a key, and answers what stood there.
    pub fn insert(&mut self, key: K, value: V) -> Result<Option<V>, AllocError> {
        self.0.try_reserve(1)?;
        Ok(self.0.insert(key, value))
    }

    /// The value at a key.
    pub fn get<Q: ?Sized + Hash + Eq>(&self, key: &Q) -> Option<&V>
    where
        K: Borrow<Q>,
    {
        self.0.get(key)
    }

    /// Whether there is a value at a key.
    pub fn contains_key<Q: ?Sized + Hash + Eq>(&self, key: &Q) -> bool
    where
        K: Borrow<Q>,
    {
        self.0.contains_key(key)
    }

    /// How many keys there are.
    pub fn len(&self) -> usize {
        self.0.len()
    }
}

/// A set as Rust's, but for calls that take memory.
pub struct HashSet<K>(std::collections::HashSet<K>);

impl<K: Hash + Eq> HashSet<K> {
    /// A set without members. It takes no memory.
    pub fn new(_alloc: Global) -> Self {
        HashSet(std::collections::HashSet::new())
    }

    /// Puts a member into the set, and answers whether it is new.
    pub fn insert(&mut self, key: K) -> Result<bool, AllocError> {
        self.0.try_reserve(1)?;
        Ok(self.0.insert(key))
    }

    /// Whether the set has a member.
    pub fn contains<Q: ?Sized + Hash + Eq>(&self, key: &Q) -> bool
    where
        K: Borrow<Q>,
    {
        self.0.contains(key)
    }
}
