//! What the handles of a cache have in common.
use super::counts::Counts;
use super::desk::{At, Desk};
use super::flights::spread;
use super::part::Part;
use super::stats::CacheStats;
use super::sync::{Mutex, MutexGuard};
use super::weights::Weighed;
use crate::drops::drop_each;
use std::hash::{BuildHasher, Hash};
use std::sync::PoisonError;

/// The id of the keys whose hash is 0, which is none: any other number, since a hasher of small numbers gives 1 to another key.
const ID_OF_ZERO: u64 = 0x9e37_79b9_7f4a_7c15;

pub(super) struct Shared<K, V, S> {
    hasher: S,
    pub capacity: usize,
    /// The ids are spread over them, so that two threads that miss rarely want one lock.
    parts: Box<[Part<K, V>]>,
    /// One for each desk.
    counts: Box<[Counts]>,
    spare: Mutex<Vec<Desk>>,
}

impl<K, V, S> Shared<K, V, S> {
    pub fn new(hasher: S, capacity: usize, parts: Vec<Part<K, V>>, spare: Vec<Desk>) -> Self {
        let counts = spare.iter().map(|_| Counts::default()).collect();
        Shared { hasher, capacity, parts: parts.into(), counts, spare: Mutex::new(spare) }
    }

    /// The id of a key, which is never 0.
    pub fn id_of<Q: Hash + ?Sized>(&self, key: &Q) -> u64
    where
        S: BuildHasher,
    {
        match self.hasher.hash_one(key) {
            0 => ID_OF_ZERO,
            hash => hash,
        }
    }

    /// Where a key's entry is looked for.
    pub fn at<Q: Hash + ?Sized>(&self, key: &Q) -> At
    where
        S: BuildHasher,
    {
        self.at_id(self.id_of(key))
    }

    /// Where an id's entry is looked for.
    pub fn at_id(&self, id: u64) -> At {
        At { id, part: self.number_of(id) }
    }

    /// Which part has an id.
    pub fn number_of(&self, id: u64) -> usize {
        let share = spread(id) >> 32;
        ((share * self.parts.len() as u64) >> 32) as usize
    }

    /// The part that has an id.
    pub fn part_of(&self, id: u64) -> &Part<K, V> {
        &self.parts[self.number_of(id)]
    }

    pub fn parts(&self) -> &[Part<K, V>] {
        &self.parts
    }

    pub fn held(&self) -> usize {
        self.parts.iter().map(Part::held).sum()
    }

    /// How much the entries weigh, and how much at most, where weights count.
    pub fn weight(&self) -> Option<Weighed> {
        self.parts.iter().try_fold(Weighed::default(), |all, part| Some(all.plus(part.weight()?)))
    }

    pub fn stats(&self) -> CacheStats {
        let mut stats = CacheStats::default();
        self.parts.iter().for_each(|part| stats += part.stats());
        self.counts.iter().for_each(|counts| counts.add_to(&mut stats));
        stats
    }

    /// What the reader counts that has a desk.
    #[inline]
    pub fn counts(&self, desk: &Desk) -> &Counts {
        &self.counts[desk.number]
    }

    /// The desks that no reader has.
    pub fn spare(&self) -> MutexGuard<'_, Vec<Desk>> {
        self.spare.lock().unwrap_or_else(PoisonError::into_inner)
    }

    /// One of them, unless another thread takes one or gives one back just now.
    pub fn spare_at_once(&self) -> Option<Desk> {
        self.spare.try_lock().ok()?.pop()
    }
}

impl<K, V, S> Drop for Shared<K, V, S> {
    fn drop(&mut self) {
        drop_each(self.parts.iter_mut().flat_map(Part::take_all));
    }
}
