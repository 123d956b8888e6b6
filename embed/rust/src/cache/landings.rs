//! What landings count.
use super::stats::CacheStats;
use std::time::Duration;

/// What each landing of a part counts, under its lock: the rest of what is counted, which rarely is, lies elsewhere.
#[derive(Default)]
pub(super) struct Landings {
    loads: u64,
    load_time: Duration,
    /// Entries that made room.
    pub evictions: u64,
}

impl Landings {
    /// One more, of a load that took so long.
    pub fn count(&mut self, took: Duration) {
        self.loads += 1;
        self.load_time += took;
    }

    pub fn add_to(&self, stats: &mut CacheStats) {
        stats.loads += self.loads;
        stats.load_time += self.load_time;
        stats.evictions += self.evictions;
    }
}
