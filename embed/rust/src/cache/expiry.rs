//! When entries expire.
use super::entry::Entry;
use super::seats::Seat;
use super::sync;
use crate::ids::Terms;
use std::sync::atomic::Ordering::Relaxed;
use std::sync::Arc;
use std::time::{Duration, Instant};

/// Nanoseconds since the cache was opened.
pub(super) type Moment = u64;

/// What tells how long an entry lives, of its key and value.
pub(super) type Lifetime<K, V> = Arc<dyn Fn(&K, &V) -> Option<Duration> + Send + Sync>;

/// When an entry came, and from when on it isn't found, however often it was.
#[derive(Clone, Copy)]
pub(super) struct Life {
    pub born: Moment,
    pub dies: Moment,
}

const NEVER: Moment = Moment::MAX;

/// The bits of a stamp that tell the seat: more than the most entries of a part and all readers have.
const SEATS: u64 = (1 << 22) - 1;

/// Where an entry sat that came out with that stamp. So nobody reads it under the lock, whom another thread wrote.
pub(super) fn seat_of(stamp: u64) -> Seat {
    ((stamp & SEATS) - 1) as Seat
}

/// How long entries live, and the clock by which they do.
#[derive(Clone, Copy)]
pub(super) struct Expiry {
    start: Instant,
    to_live: Option<u64>,
    to_idle: Option<u64>,
    to_refresh: Option<u64>,
    /// How long an entry that has expired is left for a load that fails.
    if_error: Option<u64>,
    /// Whether each entry may have a time to live of its own.
    by_entry: bool,
    /// Whether anything expires, and whether anything asks for the time: most often neither, and each get asks.
    is_set: bool,
    ticks: bool,
}

/// The times of all entries.
#[derive(Clone, Copy, Default)]
pub(super) struct Spans {
    pub to_live: Option<Duration>,
    pub to_idle: Option<Duration>,
    pub to_refresh: Option<Duration>,
    pub if_error: Option<Duration>,
}

impl Expiry {
    pub fn new(spans: Spans, by_entry: bool) -> Expiry {
        let [to_live, to_idle, to_refresh, if_error] =
            [spans.to_live, spans.to_idle, spans.to_refresh, spans.if_error].map(|span| span.map(nanos));
        let is_set = to_live.is_some() || to_idle.is_some() || by_entry;
        let ticks = is_set || to_refresh.is_some();
        Expiry { start: sync::now(), to_live, to_idle, to_refresh, if_error, by_entry, is_set, ticks }
    }

    /// The present. Where nothing expires or is refreshed no clock is read.
    #[inline]
    pub fn now(&self) -> Moment {
        if self.ticks {
            self.read_clock()
        } else {
            0
        }
    }

    fn read_clock(&self) -> Moment {
        sync::now().saturating_duration_since(self.start).as_nanos() as u64
    }

    /// Whether anything is loaded anew while it is held.
    pub fn refreshes(&self) -> bool {
        self.to_refresh.is_some()
    }

    /// Whether what has expired is left for loads that fail.
    pub fn leaves(&self) -> bool {
        self.if_error.is_some()
    }

    /// Whether an entry is so old that its value is to be loaded anew.
    pub fn is_due<K, V>(&self, entry: &Entry<K, V>) -> bool {
        self.to_refresh.is_some_and(|limit| self.now().saturating_sub(entry.life.born) >= limit)
    }

    /// Whether anything expires.
    #[inline]
    pub fn is_set(&self) -> bool {
        self.is_set
    }

    /// Whether anything does by its age.
    fn has_ages(&self) -> bool {
        self.to_live.is_some() || self.by_entry
    }

    /// The life of an entry that comes now, and of which so much is told: the shorter of its own time and all entries'.
    pub fn life(&self, own: Option<Duration>) -> Life {
        let born = self.now();
        let limit = self.to_live.into_iter().chain(own.map(nanos)).min();
        Life { born, dies: limit.map_or(NEVER, |limit| born.saturating_add(limit)) }
    }

    /// A life that begins now, and lasts as long as that one.
    pub fn as_long_as(&self, other: Life, now: Moment) -> Life {
        let dies = if other.dies == NEVER { NEVER } else { now.saturating_add(other.dies - other.born) };
        Life { born: now, dies }
    }

    /// By what the store knows of an entry that is put when nothing will be left of it, to four milliseconds, and where
    /// it sits, and of the others whether anything is.
    pub fn terms(&self, life: Life, weight: u32, seat: Seat) -> Terms {
        let goes = life.dies.saturating_add(self.if_error.unwrap_or(0));
        let (goes, bound) = if self.has_ages() { (goes, life.born.saturating_add(1)) } else { (0, 0) };
        Terms { stamp: goes & !SEATS | (u64::from(seat) + 1), weight, bound }
    }

    /// Whether an entry has expired.
    pub fn is_over<K, V>(&self, entry: &Entry<K, V>, now: Moment) -> bool {
        if !self.is_set {
            return false;
        }
        let idles_until = |limit| entry.touched.load(Relaxed).saturating_add(limit);
        self.has_ages() && now >= entry.life.dies || self.to_idle.is_some_and(|limit| now >= idles_until(limit))
    }

    /// Whether it had done so before the time for which it is left.
    pub fn is_gone<K, V>(&self, entry: &Entry<K, V>, now: Moment) -> bool {
        now.checked_sub(self.if_error.unwrap_or(0)).is_some_and(|before| self.is_over(entry, before))
    }

    /// Notes that the entry was found. Other threads see a write only once a sixteenth of the time to idle has passed.
    pub fn touch<K, V>(&self, entry: &Entry<K, V>, now: Moment) {
        let Some(limit) = self.to_idle else { return };
        if now.saturating_sub(entry.touched.load(Relaxed)) > limit / 16 {
            entry.touched.store(now, Relaxed);
        }
    }
}

fn nanos(time: Duration) -> u64 {
    time.as_nanos().min(u64::MAX as u128) as u64
}
