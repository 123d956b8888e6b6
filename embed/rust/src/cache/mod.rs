//! A cache of values of any type by keys of any type.
mod absent;
mod all;
mod builder;
mod change;
mod counts;
mod desk;
mod entry;
mod expiry;
mod failure;
mod flights;
mod handful;
mod hold;
mod kept;
mod landings;
mod leaving;
mod loaded;
mod lock;
mod many;
mod own;
mod part;
mod reader;
mod reaping;
mod request;
mod seats;
mod shared;
mod stale;
mod stats;
mod store;
pub(crate) mod sync;
mod tasks;
mod threads;
mod under_way;
mod view;
mod wait;
mod weights;

pub use absent::NotInserted;
pub use builder::CacheBuilder;
pub use change::Change;
pub use leaving::RemovalCause;
pub use loaded::Loaded;
pub use reader::{CacheReader, CacheRef, LoadError, WaitError};
pub use request::{Request, Sought};
pub use stats::CacheStats;
pub use view::View;
pub use wait::Wait;

use crate::drops::with_each;
use part::Part;
use shared::Shared;
use std::borrow::Borrow;
use std::collections::hash_map::RandomState;
use std::fmt;
use std::hash::{BuildHasher, Hash};
use std::sync::Arc;

/// A cache in front of something slow: it holds so many values, of keys from a set of any size, and has each missing
/// value loaded once, however many threads miss it, and once more only after its key has changed. A get that finds its
/// key takes no lock, and writes no word that others read but its key's and its reader's.
///
/// It is a handle: clones are of one cache, whose memory goes with the last of them and of its readers.
///
/// ```
/// use nr::Cache;
/// use std::time::Duration;
///
/// # fn query(user: &str) -> Result<String, String> {
/// #     Ok(format!("what the base has of {user}"))
/// # }
/// let cache: Cache<String, String> =
///     Cache::builder().capacity(10_000).threads(8).time_to_live(Duration::from_secs(60)).open()?;
/// let mut reader = cache.reader().expect("there is one for each of the threads");
/// // Another thread that misses her meanwhile waits for this query.
/// let found = reader.try_get_with("alice", || query("alice"))?;
/// assert_eq!(*found, "what the base has of alice");
/// drop(found);
/// // After a write to the database: what was queried before is not kept.
/// cache.invalidate("alice");
/// assert!(reader.get("alice").is_none());
/// assert_eq!(cache.stats().loads, 1);
/// # Ok::<(), Box<dyn std::error::Error>>(())
/// ```
pub struct Cache<K: Hash + Eq, V, S: BuildHasher = RandomState> {
    shared: Arc<Shared<K, V, S>>,
}

impl<K: Hash + Eq, V> Cache<K, V> {
    /// What a cache is opened with.
    pub fn builder() -> CacheBuilder<K, V> {
        CacheBuilder::new()
    }
}

impl<K: Hash + Eq, V, S: BuildHasher> Cache<K, V, S> {
    /// A reader for the thread that asks, or none where all are out, or kept by threads that have called [`Cache::get`].
    pub fn reader(&self) -> Option<CacheReader<K, V, S>> {
        let desk = self.shared.spare().pop()?;
        Some(CacheReader::of(desk, self.clone()))
    }

    /// Puts a value in place of what its key has, or another key of its hash. A load that is under way for the key will
    /// not be held, and nobody waits for it any more. Whether the cache holds the value: it doesn't during a
    /// [`Change`], nor where it is too heavy ([`CacheBuilder::max_weight`]).
    pub fn insert(&self, key: K, value: V) -> bool {
        let id = self.shared.id_of(&key);
        let part = self.shared.part_of(id);
        part.put(part.own_entry(id, key, value))
    }

    /// Takes a key's value, and another's of its hash: whether the key had one. No get that begins after this has
    /// returned sees it, nor what a load gives that began before, nor waits for such a load: it begins one of its own
    /// beside it. Those who wait for it look again.
    pub fn invalidate<Q: Hash + Eq + ?Sized>(&self, key: &Q) -> bool
    where
        K: Borrow<Q>,
    {
        let id = self.shared.id_of(key);
        self.shared.part_of(id).invalidate(id, key)
    }

    /// Takes each key's value, as [`Cache::invalidate`] does one.
    pub fn invalidate_all(&self) {
        with_each(self.shared.parts(), Part::invalidate_all);
    }

    /// Takes what has expired, and frees what left and nobody sees any more: so values are dropped, or given to the
    /// listener, without another write of their part. What a reader borrows stays until a later call. It looks at 64
    /// entries at a time under their part's lock. Where a value's drop panics, the others go before the panic goes on.
    pub fn run_pending_tasks(&self) {
        with_each(self.shared.parts(), Part::run_pending_tasks);
    }

    /// How many entries it holds, of which some may have expired.
    pub fn len(&self) -> usize {
        self.shared.held()
    }

    /// Whether it holds none.
    pub fn is_empty(&self) -> bool {
        self.len() == 0
    }

    /// How many entries it holds at most.
    pub fn capacity(&self) -> usize {
        self.shared.capacity
    }

    /// What it has counted.
    pub fn stats(&self) -> CacheStats {
        self.shared.stats()
    }

    /// Names and numbers of what it has counted and of what it holds, for an exporter.
    pub fn metrics(&self) -> impl Iterator<Item = (&'static str, u64)> {
        let held = [("entries", self.len() as u64), ("capacity", self.capacity() as u64)];
        let weighed = self.shared.weight().map(|it| [("weight", it.sum), ("max_weight", it.most)]);
        self.stats().named().into_iter().chain(held).chain(weighed.into_iter().flatten())
    }
}

impl<K: Hash + Eq, V, S: BuildHasher> Clone for Cache<K, V, S> {
    fn clone(&self) -> Self {
        Cache { shared: Arc::clone(&self.shared) }
    }
}

impl<K: Hash + Eq, V, S: BuildHasher> fmt::Debug for Cache<K, V, S> {
    fn fmt(&self, f: &mut fmt::Formatter<'_>) -> fmt::Result {
        f.debug_struct("Cache")
            .field("capacity", &self.capacity())
            .field("stats", &self.stats())
            .finish_non_exhaustive()
    }
}
