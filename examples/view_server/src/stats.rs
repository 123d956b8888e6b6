//! What STATS tells. Each thread counts in cache lines of its own, so that no read writes where another does.
use crate::Shared;
use std::{sync::atomic::AtomicU64, sync::atomic::Ordering::Relaxed, time::Duration};

pub enum Count {
    Hits,
    Misses,
    Votes,
    Errors,
    Refused,
    TimedOut,
}

const NAMES: [&str; 6] = ["hits", "misses", "votes", "errors", "refused-clients", "timed-out-clients"];
/// The kinds of commands whose times are told: those of the first counts.
const TIMED: [&str; 3] = ["hit", "miss", "vote"];

#[derive(Default)]
#[repr(align(128))]
pub struct Counts {
    counts: [AtomicU64; NAMES.len()],
    /// How many commands of each kind took less than two to the power of a place, in microseconds, and not less than half.
    times: [[AtomicU64; 32]; TIMED.len()],
}

impl Counts {
    pub fn up(&self, what: Count) {
        self.counts[what as usize].fetch_add(1, Relaxed);
    }

    /// Counts a command of a kind that is timed.
    pub fn took(&self, what: Count, time: Duration) {
        let (what, doublings) = (what as usize, (time.as_micros() as u64 + 1).ilog2() as usize);
        self.counts[what].fetch_add(1, Relaxed);
        self.times[what][doublings.min(31)].fetch_add(1, Relaxed);
    }
}

fn sum(shared: &Shared, of: impl Fn(&Counts) -> &AtomicU64) -> u64 {
    shared.counts.iter().map(|counts| of(counts).load(Relaxed)).sum()
}

/// Below which time so many of a thousand commands of a kind were answered, in microseconds to a power of two.
fn within(shared: &Shared, kind: usize, permille: u64) -> u64 {
    let counts: Vec<u64> = (0..32).map(|place| sum(shared, |counts| &counts.times[kind][place])).collect();
    let mut left = (counts.iter().sum::<u64>() * permille).div_ceil(1000);
    let mut doublings = 0;
    while left > 0 {
        left = left.saturating_sub(counts[doublings]);
        doublings += 1;
    }
    (1 << doublings) - 1
}

/// Each on a line of its own.
pub fn text(shared: &Shared) -> String {
    let (view, held) = (shared.view.stats(), shared.view.len() as u64);
    let of_view = [("loads", view.loads), ("failures", view.failures), ("waits", view.waits), ("held", held)];
    let more_of_view = [("evictions", view.evictions), ("refused", view.refused), ("outdated", view.outdated)];
    let counted = (0..NAMES.len()).map(|place| (NAMES[place], sum(shared, |counts| &counts.counts[place])));
    let lines = counted.chain(of_view).chain(more_of_view).chain([("clients", shared.door.count() as u64)]);
    let mut text: String = lines.map(|(name, count)| format!("{name}:{count}\n")).collect();
    for (kind, name) in TIMED.iter().enumerate() {
        let [half, most, all] = [500, 990, 999].map(|permille| within(shared, kind, permille));
        text += &format!("{name}-us-p50:{half}\n{name}-us-p99:{most}\n{name}-us-p999:{all}\n");
    }
    text
}
