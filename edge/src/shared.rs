//! What the threads share.
use crate::base::Base;
use crate::configuration::{Configuration, Encoding};
use crate::guest::Host;
use crate::key::Key;
use crate::lsn::Lsn;
use crate::slot::Lasting;
use crate::stats::{Counts, Now};
use crate::tables::Table;
use crate::value::Value;
use edge_common::postgres::pool::Pool;
use edge_common::progress::Progress;
use nr::Cache;
use std::sync::atomic::{AtomicBool, AtomicI32, AtomicU64, Ordering::Relaxed, Ordering::SeqCst};
use std::sync::{Arc, Mutex, PoisonError, RwLock};
use std::time::{Duration, Instant};

pub struct Shared {
    pub configuration: Configuration,
    pub base: Base,
    pub host: Host,
    pub cache: Cache<Key, Arc<Value>>,
    /// The place in PostgreSQL's log whose changes are applied.
    pub progress: Progress,
    /// All that clients were told was committed before this place. It never falls.
    pub told: AtomicU64,
    /// Those of the workers, and those of all other threads.
    pub counts: Vec<Counts>,
    pub work: Counts,
    pub now: Now,
    pub writers: Pool,
    /// PostgreSQL's process that brings the changes, or 0.
    pub stream: AtomicI32,
    /// The slot that doesn't go by itself.
    lasting: Mutex<Option<Lasting>>,
    /// Another table has the name of one that the stream brings.
    pub has_other_table: AtomicBool,
    /// The edge ends, and what is broken then stays so.
    pub is_over: AtomicBool,
    tables: RwLock<Arc<[Table]>>,
    begun: Instant,
    is_following: AtomicBool,
    /// When word of the stream came last, in milliseconds since the begin.
    heard: AtomicU64,
    max_staleness: Option<Duration>,
}

impl Shared {
    pub fn new(configuration: Configuration, base: Base, tables: Vec<Table>) -> Result<Shared, String> {
        let (workers, keys) = (configuration.listen.workers(), configuration.cache.keys as usize);
        // It is in parts: with some room, none is full while the keys are fewer than they may be.
        let cache = Cache::builder().capacity(keys + keys / 4 + 128).threads(workers.into());
        Ok(Shared {
            base,
            host: Host { name: "edge", version: env!("CARGO_PKG_VERSION"), password: configuration.listen.password()? },
            cache: cache.open().map_err(|fault| format!("the cache: {fault}"))?,
            progress: Progress::default(),
            told: AtomicU64::new(0),
            counts: (0..workers).map(|_| Counts::default()).collect(),
            work: Counts::default(),
            now: Now::default(),
            writers: Pool::default(),
            stream: AtomicI32::new(0),
            lasting: Mutex::default(),
            has_other_table: AtomicBool::new(false),
            is_over: AtomicBool::new(false),
            tables: RwLock::new(tables.into()),
            begun: Instant::now(),
            is_following: AtomicBool::new(false),
            heard: AtomicU64::new(0),
            max_staleness: configuration.source.max_staleness(),
            configuration,
        })
    }

    pub fn tables(&self) -> Arc<[Table]> {
        Arc::clone(&self.tables.read().unwrap_or_else(PoisonError::into_inner))
    }

    pub fn has_tables(&self, tables: Vec<Table>) {
        *self.tables.write().unwrap_or_else(PoisonError::into_inner) = tables.into();
    }

    pub fn encoding(&self, view: usize) -> Encoding {
        self.configuration.views[view].encoding
    }

    pub fn lasting(&self) -> Option<Lasting> {
        self.lasting.lock().unwrap_or_else(PoisonError::into_inner).clone()
    }

    pub fn set_lasting(&self, lasting: Option<Lasting>) {
        *self.lasting.lock().unwrap_or_else(PoisonError::into_inner) = lasting;
    }

    /// Before PostgreSQL is told of the place, and needn't keep what came before it.
    pub fn has_reached(&self, place: Lsn) {
        let mut lasting = self.lasting.lock().unwrap_or_else(PoisonError::into_inner);
        lasting.iter_mut().for_each(|lasting| lasting.reached = place);
    }

    pub fn follows(&self, is_following: bool) {
        self.is_following.store(is_following, SeqCst);
    }

    pub fn is_following(&self) -> bool {
        self.is_following.load(SeqCst)
    }

    pub fn hears(&self) {
        self.heard.store(self.begun.elapsed().as_millis() as u64, Relaxed);
    }

    /// Since word of the stream came.
    pub fn silence(&self) -> Duration {
        self.begun.elapsed().saturating_sub(Duration::from_millis(self.heard.load(Relaxed)))
    }

    /// Whether PostgreSQL is to be asked also for what is held.
    pub fn is_stale(&self) -> bool {
        self.max_staleness.is_some_and(|most| self.silence() > most)
    }
}
