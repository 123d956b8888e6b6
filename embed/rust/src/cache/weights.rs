//! What entries weigh, of a cache that has a bound for that beside the one for their count.
use super::entry::Entry;
use super::flights::End;
use super::store::Store;
use super::{Cache, CacheBuilder};
use std::hash::{BuildHasher, Hash};
use std::sync::Arc;

/// What tells how much an entry weighs, of its key and value.
pub(super) type Weigher<K, V> = Arc<dyn Fn(&K, &V) -> u32 + Send + Sync>;

/// How much entries weigh together, and how much they may.
#[derive(Clone, Copy, Default)]
pub(super) struct Weighed {
    pub sum: u64,
    pub most: u64,
}

impl Weighed {
    pub fn plus(self, other: Weighed) -> Weighed {
        Weighed { sum: self.sum + other.sum, most: self.most + other.most }
    }
}

impl<K, V> Store<K, V> {
    /// What its entries weigh, as the library counts it: one weighs until it leaves.
    pub fn weight(&mut self) -> Option<Weighed> {
        self.most.map(|most| Weighed { sum: self.ids.weight(), most })
    }

    /// Whether an entry can't be held, whatever goes for it.
    pub fn is_too_heavy(&self, entry: &Entry<K, V>) -> bool {
        self.most.is_some_and(|most| u64::from(entry.weight) > most)
    }

    /// How a load ends that gives this.
    pub fn end_by(&self, entry: &Entry<K, V>) -> End {
        if self.is_too_heavy(entry) {
            End::TooHeavy
        } else {
            End::Loaded
        }
    }

    /// Counts an entry that isn't held, which was too heavy, or came too late.
    pub fn count_own(&mut self, entry: &Entry<K, V>) {
        match self.is_too_heavy(entry) {
            true => self.counted.refused += 1,
            false => self.counted.outdated += 1,
        }
    }
}

/// A part's share of a bound, of so many parts. The shares add up to it.
pub(super) fn share(most: u64, number: usize, parts: usize) -> u64 {
    let parts = parts as u64;
    most / parts + u64::from((number as u64) < most % parts)
}

impl<K, V, S> CacheBuilder<K, V, S> {
    /// How much all entries weigh together at most, of whom each weighs what [`CacheBuilder::weigher`] says, and 1 where
    /// none is set. [`CacheBuilder::capacity`] bounds their count as before. Where an entry comes that doesn't fit, others
    /// go before it is held, as in a full cache, and the listener is told [`RemovalCause::Size`](crate::RemovalCause::Size).
    ///
    /// The parts have equal shares of it. What weighs more than its part's share is not held: it is its caller's alone, what
    /// its key had goes, and [`CacheStats::refused`](crate::CacheStats::refused) counts it. Who waits for such a load is told
    /// once it ends, and loads the value too, beside all others who waited.
    ///
    /// What left and is borrowed still doesn't count, nor what is on its way to be dropped.
    pub fn max_weight(mut self, most: u64) -> CacheBuilder<K, V, S> {
        self.max_weight = Some(most);
        self
    }

    /// How much an entry weighs that has this key and value. It is told as the value is loaded, inserted, updated, changed
    /// or filled, without a lock and by the thread that puts it; where it panics, so does that call, and a load has failed
    /// then. Without [`CacheBuilder::max_weight`] the weights are added up, and nothing makes room for them.
    ///
    /// ```
    /// use nr::Cache;
    ///
    /// let pages: Cache<u64, String> =
    ///     Cache::builder().threads(1).weigher(|_, page: &String| page.len() as u32).max_weight(10).open()?;
    /// assert!(pages.insert(1, "six by".into()) && pages.insert(2, "four".into()));
    /// assert_eq!((pages.len(), pages.weighted_size()), (2, 10));
    /// assert!(pages.insert(3, "one more".into()));
    /// assert_eq!((pages.len(), pages.weighted_size()), (1, 8));
    /// assert!(!pages.insert(4, "never held".repeat(2)));
    /// # Ok::<(), nr::Fault>(())
    /// ```
    pub fn weigher<F>(mut self, weigher: F) -> CacheBuilder<K, V, S>
    where
        F: Fn(&K, &V) -> u32 + Send + Sync + 'static,
    {
        self.weigher = Some(Arc::new(weigher));
        self
    }

    /// The bound of each part, where weights count at all.
    pub(super) fn bound(&self) -> Option<u64> {
        self.max_weight.or(self.weigher.as_ref().map(|_| u64::MAX))
    }
}

impl<K: Hash + Eq, V, S: BuildHasher> Cache<K, V, S> {
    /// How much its entries weigh together, of which some may have expired: as many as there are, where neither
    /// [`CacheBuilder::max_weight`] nor [`CacheBuilder::weigher`] was set.
    pub fn weighted_size(&self) -> u64 {
        self.shared.weight().map_or(self.len() as u64, |weighed| weighed.sum)
    }
}
