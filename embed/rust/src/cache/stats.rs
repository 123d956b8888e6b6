//! What a cache counts.
use std::ops::AddAssign;
use std::time::Duration;

/// What a cache has counted since it was opened.
#[derive(Clone, Copy, Debug, Default, PartialEq, Eq)]
pub struct CacheStats {
    /// Gets that found their key at once.
    pub hits: u64,
    /// All others.
    pub misses: u64,
    /// Loads that gave a value.
    pub loads: u64,
    /// Loads that failed or panicked.
    pub failures: u64,
    /// How long all loads took that have ended, each from when its caller was told to load until its value came or it
    /// failed.
    pub load_time: Duration,
    /// Times that a get waited for the load of another.
    pub waits: u64,
    /// Entries that made room for others or had expired.
    pub evictions: u64,
    /// How many of these had expired as they were freed, which is once no reader sees them.
    pub expired: u64,
    /// Values that were not held since another key has their hash, since more than 1,024 loads of a part were under way, or
    /// since they were too heavy.
    pub refused: u64,
    /// How many of these had another key of their hash beside them.
    pub clashes: u64,
    /// Gets of a key whose load failed that gave what was left of it ([`stale_if_error`](crate::CacheBuilder::stale_if_error)).
    pub stale: u64,
    /// Values that were not held since their load began before their key's invalidation, insertion or change was over.
    pub outdated: u64,
}

impl CacheStats {
    pub(super) fn named(&self) -> [(&'static str, u64); 12] {
        [
            ("hits", self.hits),
            ("misses", self.misses),
            ("loads", self.loads),
            ("failures", self.failures),
            ("load_nanoseconds", self.load_time.as_nanos() as u64),
            ("waits", self.waits),
            ("evictions", self.evictions),
            ("expired", self.expired),
            ("refused", self.refused),
            ("clashes", self.clashes),
            ("stale", self.stale),
            ("outdated", self.outdated),
        ]
    }
}

impl AddAssign for CacheStats {
    fn add_assign(&mut self, other: CacheStats) {
        self.hits += other.hits;
        self.misses += other.misses;
        self.loads += other.loads;
        self.failures += other.failures;
        self.load_time += other.load_time;
        self.waits += other.waits;
        self.evictions += other.evictions;
        self.expired += other.expired;
        self.refused += other.refused;
        self.clashes += other.clashes;
        self.stale += other.stale;
        self.outdated += other.outdated;
    }
}
