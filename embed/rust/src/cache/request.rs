//! Loads that are under way, as those have them who make them.
use super::failure::{Cause, Failure};
use super::part::{Landed, Load, Part};
use super::{Cache, Wait};
use std::collections::hash_map::RandomState;
use std::error::Error;
use std::fmt;
use std::hash::{BuildHasher, Hash};

/// The load of a missing key, for a pool or a dataflow's thread: its key's others wait until it is filled, or until the
/// key is invalidated, put or changed. Dropped without that it has failed. Forgotten, it ends by the latter alone. Of a
/// key that is held, of whose value it is to load a newer one, nobody waits for it ([`Sought::Aged`]).
#[must_use = "dropped, the load has failed"]
pub struct Request<K: Hash + Eq, V, S: BuildHasher = RandomState> {
    pending: Pending<K, V, S>,
    key: K,
}

/// A load that has failed where this is dropped before its end.
struct Pending<K: Hash + Eq, V, S: BuildHasher> {
    cache: Cache<K, V, S>,
    load: Load,
}

impl<K: Hash + Eq, V, S: BuildHasher> Pending<K, V, S> {
    fn part(&self) -> &Part<K, V> {
        self.cache.shared.part_of(self.load.id())
    }
}

impl<K: Hash + Eq, V, S: BuildHasher> Drop for Pending<K, V, S> {
    fn drop(&mut self) {
        self.part().fail(&self.load);
    }
}

impl<K: Hash + Eq, V, S: BuildHasher> Request<K, V, S> {
    /// The request that such a load is. Where the key's clone panics, the load has failed.
    pub(super) fn of<Q>(cache: Cache<K, V, S>, load: Load, key: &Q) -> Request<K, V, S>
    where
        Q: ToOwned<Owned = K> + ?Sized,
    {
        let pending = Pending { cache, load };
        Request { pending, key: key.to_owned() }
    }

    /// The key that is missing, or whose value is old.
    pub fn key(&self) -> &K {
        &self.key
    }

    /// Ends it with the key's value, and wakes those who wait. Whether the cache holds the value: it doesn't where the
    /// key was invalidated or put since, or was being changed, nor where it came beside too many others or is too heavy,
    /// nor, of a key that was held, where the value went that is to be replaced.
    pub fn fill(self, value: V) -> bool {
        let Request { pending, key } = self;
        let part = pending.part();
        let entry = part.entry(None, pending.load.id(), key, value);
        matches!(part.land(&pending.load, entry, None), Landed::Held(_))
    }

    /// Ends it without a value. Those who wait without a load of their own are told why; of the others one loads the key.
    /// Where something is left of the key ([`CacheBuilder::stale_if_error`](super::CacheBuilder::stale_if_error)), the
    /// former have that; who calls this has no value.
    pub fn fail(self, why: impl Into<Box<dyn Error + Send + Sync>>) {
        self.pending.part().crash(&self.pending.load, Failure::Said(Cause::from(why.into())));
    }
}

impl<K: Hash + Eq + fmt::Debug, V, S: BuildHasher> fmt::Debug for Request<K, V, S> {
    fn fmt(&self, f: &mut fmt::Formatter<'_>) -> fmt::Result {
        f.debug_struct("Request").field("key", self.key()).finish_non_exhaustive()
    }
}

/// What is known of a key, whose value is told by a `T`: a [`CacheRef`](super::CacheRef), or a clone.
#[derive(Debug)]
pub enum Sought<T, K: Hash + Eq, V, S: BuildHasher = RandomState> {
    /// The cache holds its value.
    Held(T),
    /// So it does, and that is as old as [`CacheBuilder::refresh_after`](super::CacheBuilder::refresh_after) says: this
    /// caller alone has a request to load it anew, beside which others go on finding what is held. Dropped, another
    /// caller gets one. What it is filled with takes that value's place, unless that was invalidated, put or changed
    /// since, or made room.
    Aged(T, Request<K, V, S>),
    /// It is missing, and this caller alone has its request, which is to be filled.
    Missing(Request<K, V, S>),
    /// It is missing, and another loads it: a task awaits that, a thread may wait by
    /// [`CacheReader::get_waiting`](super::CacheReader::get_waiting), and who does neither drops it.
    UnderWay(Wait<K, V, S>),
}
