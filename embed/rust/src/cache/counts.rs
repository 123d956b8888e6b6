//! What readers count.
use super::stats::CacheStats;
use std::sync::atomic::{AtomicU64, Ordering::Relaxed};

/// What one reader counts, on a cache line of its own.
#[derive(Default)]
#[repr(align(128))]
pub(super) struct Counts {
    hits: AtomicU64,
    misses: AtomicU64,
    waits: AtomicU64,
}

impl Counts {
    #[inline]
    pub fn count_hit(&self) {
        count(&self.hits);
    }

    #[inline]
    pub fn count_miss(&self) {
        count(&self.misses);
    }

    pub fn count_wait(&self) {
        count(&self.waits);
    }

    pub fn add_to(&self, stats: &mut CacheStats) {
        stats.hits += self.hits.load(Relaxed);
        stats.misses += self.misses.load(Relaxed);
        stats.waits += self.waits.load(Relaxed);
    }
}

/// One more. Only their reader counts.
#[inline]
fn count(counter: &AtomicU64) {
    counter.store(counter.load(Relaxed) + 1, Relaxed);
}
