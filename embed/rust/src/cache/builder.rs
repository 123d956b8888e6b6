//! How a cache is opened.
use super::desk::Desk;
use super::expiry::{Expiry, Lifetime, Spans};
use super::leaving::{Listener, RemovalCause};
use super::part::{Arrange, Part, Told};
use super::reaping::Reaping;
use super::shared::Shared;
use super::store::Store;
use super::weights::{share, Weigher};
use super::Cache;
use crate::ids::{self, IdReader, IdShape};
use crate::Fault;
use std::collections::hash_map::RandomState;
use std::fmt;
use std::hash::{BuildHasher, Hash};
use std::sync::Arc;
use std::thread::available_parallelism;
use std::time::Duration;

const MAX_CAPACITY: usize = 2_600_000;

/// How many readers a cache may have, one for each thread that reads at a time.
const MAX_THREADS: u32 = 65_533;

const MAX_PARTS: usize = 32;

/// So that two threads that miss at the same time rarely do so in one part. No more do than there are processors, and each
/// part has lines of memory of its own, which its hits want near. Where entries have weights there is one part for each
/// thread, since none may weigh more than a part's share.
const PARTS_PER_THREAD: usize = 4;

/// How many readers the maps of all parts may have where there is more than one: of 6 kB each.
const MAX_READERS: usize = 512;

/// How many entries a part has at least where there is more than one.
const LEAST_PART: usize = 128;

/// What a cache is opened with.
pub struct CacheBuilder<K, V, S = RandomState> {
    capacity: usize,
    threads: u32,
    spans: Spans,
    hasher: S,
    pub(super) arrange: Option<Arrange<V>>,
    lifetime: Option<Lifetime<K, V>>,
    pub(super) weigher: Option<Weigher<K, V>>,
    pub(super) max_weight: Option<u64>,
    listener: Option<Listener<K, V>>,
}

impl<K, V> CacheBuilder<K, V> {
    pub(super) fn new() -> CacheBuilder<K, V> {
        let hasher = RandomState::new();
        let spans = Spans::default();
        let (arrange, lifetime, weigher, max_weight, listener) = (None, None, None, None, None);
        CacheBuilder { capacity: 1000, threads: 16, spans, hasher, arrange, lifetime, weigher, max_weight, listener }
    }
}

impl<K, V, S> CacheBuilder<K, V, S> {
    /// How many entries the cache holds: 1 to 2,600,000; 1,000 where nothing is said. They are in parts, of which each
    /// has a share of at least 128: a full part evicts, also where others have room.
    pub fn capacity(self, capacity: usize) -> CacheBuilder<K, V, S> {
        CacheBuilder { capacity, ..self }
    }

    /// The same as [`CacheBuilder::capacity`].
    pub fn max_capacity(self, capacity: usize) -> CacheBuilder<K, V, S> {
        self.capacity(capacity)
    }

    /// How many readers there can be at a time, and so how many threads may get without a lock: 1 to 65,533; 16 where
    /// nothing is said. For one thread there is one part. Else there are four for each, or for each processor if there are
    /// fewer, or one for each thread where weights have a bound, but 32 at most, and fewer where all readers would take more
    /// than 3 MB: a reader takes 6 kB in each part. A part has a lock of its own for misses and writes.
    pub fn threads(self, threads: u32) -> CacheBuilder<K, V, S> {
        CacheBuilder { threads, ..self }
    }

    /// How long after it was put an entry is found.
    pub fn time_to_live(self, time: Duration) -> CacheBuilder<K, V, S> {
        CacheBuilder { spans: Spans { to_live: Some(time), ..self.spans }, ..self }
    }

    /// How long after it was last found an entry is found, to a sixteenth of that time.
    pub fn time_to_idle(self, time: Duration) -> CacheBuilder<K, V, S> {
        CacheBuilder { spans: Spans { to_idle: Some(time), ..self.spans }, ..self }
    }

    /// How long after it was put a value is to be loaded anew while it is found still. Who asks for it by
    /// [`Cache::get_or_request`] then has it with a request beside it ([`Sought::Aged`](crate::Sought::Aged)), which
    /// one caller gets at a time. All others find it as before, also by other gets.
    pub fn refresh_after(self, time: Duration) -> CacheBuilder<K, V, S> {
        CacheBuilder { spans: Spans { to_refresh: Some(time), ..self.spans }, ..self }
    }

    /// With what `change` makes of the times of all entries.
    pub(super) fn spans(self, change: impl FnOnce(Spans) -> Spans) -> CacheBuilder<K, V, S> {
        CacheBuilder { spans: change(self.spans), ..self }
    }

    /// How long after it was put an entry is found that has this key and value, where that is told: it expires by the
    /// first of its times. It is told as a value is loaded, inserted or filled, without a lock and by the thread that
    /// puts it; where it panics, so does that call, and a load has failed then. A value that a [`Change`](crate::Change)
    /// makes lives as long as that which it replaces was to.
    pub fn expire_after<F>(self, lifetime: F) -> CacheBuilder<K, V, S>
    where
        F: Fn(&K, &V) -> Option<Duration> + Send + Sync + 'static,
    {
        CacheBuilder { lifetime: Some(Arc::new(lifetime)), ..self }
    }

    /// Who is given each value that left the cache, with its key and why: once no reader sees it, by the thread that finds that
    /// and without a lock. Values that the cache didn't hold, and those that it holds at its end, are dropped.
    pub fn eviction_listener<L>(self, listener: L) -> CacheBuilder<K, V, S>
    where
        L: Fn(K, V, RemovalCause) + Send + Sync + 'static,
    {
        CacheBuilder { listener: Some(Arc::new(listener)), ..self }
    }

    /// By what keys are hashed, in place of a hasher with keys drawn at random. Where strangers choose keys, theirs must
    /// be secret too. Keys of one hash are told apart, and one of them at a time is held.
    pub fn hasher<T: BuildHasher>(self, hasher: T) -> CacheBuilder<K, V, T> {
        let CacheBuilder { capacity, threads, spans, arrange, lifetime, weigher, max_weight, listener, .. } = self;
        CacheBuilder { capacity, threads, spans, hasher, arrange, lifetime, weigher, max_weight, listener }
    }
}

impl<K: Hash + Eq, V, S: BuildHasher> CacheBuilder<K, V, S> {
    /// Opens the cache. Refused with [`Fault::BadSize`], [`Fault::NoMemory`] or [`Fault::OtherLibrary`].
    pub fn open(self) -> Result<Cache<K, V, S>, Fault> {
        let is_right = (1..=MAX_CAPACITY).contains(&self.capacity) && (1..=MAX_THREADS).contains(&self.threads);
        if !is_right {
            return Err(Fault::BadSize);
        }
        let count = self.parts();
        let expiry = Expiry::new(self.spans, self.lifetime.is_some());
        let bound = self.bound();
        let Self { arrange, lifetime, weigher, listener, .. } = self;
        let told = Told { arrange, lifetime, weigher, listener };
        let mut spare: Vec<Vec<IdReader>> = (0..self.threads).map(|_| Vec::with_capacity(count)).collect();
        let mut parts = Vec::with_capacity(count);
        for number in 0..count {
            let capacity = (self.capacity + number) / count;
            let most = bound.map(|most| share(most, number, count));
            let (ids, readers) = ids::open(&shape(capacity, self.threads, most))?;
            spare.iter_mut().zip(readers).for_each(|(desk, reader)| desk.push(reader));
            let reaping = Reaping::new(capacity, spare.len(), told.listener.is_some() || most.is_some());
            let store = Store::new(ids, capacity, expiry, most, reaping);
            parts.push(Part::new(expiry, told.clone(), store));
        }
        let spare = spare.into_iter().zip(0..).map(|(ids, number)| Desk::new(ids, number)).collect();
        Ok(Cache { shared: Arc::new(Shared::new(self.hasher, self.capacity, parts, spare)) })
    }

    /// How many parts the cache has: some for each thread, as far as that takes neither much memory nor so small parts that
    /// by chance some would be full long before others.
    pub(crate) fn parts(&self) -> usize {
        let threads = self.threads as usize;
        let at_once = available_parallelism().map_or(threads, |processors| threads.min(processors.get()));
        let wanted = if threads == 1 || self.max_weight.is_some() { threads } else { at_once * PARTS_PER_THREAD };
        wanted.min(MAX_PARTS).min(MAX_READERS / (threads + 1)).min(self.capacity / LEAST_PART).max(1)
    }
}

impl<K, V, S> fmt::Debug for CacheBuilder<K, V, S> {
    fn fmt(&self, f: &mut fmt::Formatter<'_>) -> fmt::Result {
        let (capacity, threads) = (self.capacity, self.threads);
        f.debug_struct("CacheBuilder").field("capacity", &capacity).field("threads", &threads).finish_non_exhaustive()
    }
}

/// How many groups a part may have.
const MAX_GROUPS: u32 = 516_000;

/// How many loads, and how many changes, of a part may be under way at a time for which others wait, or after which rows are
/// held: each is looked for among those that are.
pub(super) const MOST_AT_ONCE: u32 = 1024;

/// What a part is opened with. Eight places for each five entries, so that few groups are full before the part is. A part of
/// which the share of a weight is none holds what weighs nothing alone, so its bound tells nothing.
fn shape(capacity: usize, threads: u32, most: Option<u64>) -> IdShape {
    let groups = (capacity.div_ceil(5) as u32).min(MAX_GROUPS);
    let (flights, changes) = (MOST_AT_ONCE.max(threads), MOST_AT_ONCE);
    let key = RandomState::new().hash_one(0u8);
    let weight = most.map_or(0, |most| most.max(1));
    IdShape { groups, capacity: capacity as u32, readers: threads, flights, changes, weight, key }
}
