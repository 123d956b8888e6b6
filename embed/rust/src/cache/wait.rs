//! Loads that are under way, as those have them who wait.
use super::flights::{End, Ended, Flight};
use super::{Cache, WaitError};
use std::collections::hash_map::RandomState;
use std::fmt;
use std::future::Future;
use std::hash::{BuildHasher, Hash};
use std::pin::Pin;
use std::sync::Arc;
use std::task::{Context, Poll};

/// The end of another's load, for a task of any runtime: it comes to a clone of the value, or to why there is none. It
/// holds no value and no lock meanwhile, and no reader. Dropped before, it waits no longer, and the load goes on. A
/// thread waits by [`CacheReader::get_waiting`](crate::CacheReader::get_waiting).
///
/// It comes to [`WaitError::Missing`] where what was loaded isn't held, and to [`WaitError::Failed`] where the load
/// failed: then ask for the key anew. It never comes to [`WaitError::TimedOut`].
#[must_use = "it waits once it is awaited"]
pub struct Wait<K: Hash + Eq, V, S: BuildHasher = RandomState> {
    cache: Cache<K, V, S>,
    id: u64,
    key: K,
    ended: Ended,
    is_counted: bool,
}

impl<K: Hash + Eq, V, S: BuildHasher> Unpin for Wait<K, V, S> {}

impl<K: Hash + Eq, V, S: BuildHasher> Wait<K, V, S> {
    pub(super) fn of(cache: Cache<K, V, S>, id: u64, key: K, flight: Arc<Flight>) -> Wait<K, V, S> {
        Wait { cache, id, key, ended: flight.ended(), is_counted: false }
    }

    /// The key that is loaded.
    pub fn key(&self) -> &K {
        &self.key
    }
}

impl<K: Hash + Eq + 'static, V: Clone + 'static, S: BuildHasher + 'static> Future for Wait<K, V, S> {
    type Output = Result<V, WaitError>;

    fn poll(mut self: Pin<&mut Self>, context: &mut Context<'_>) -> Poll<Self::Output> {
        if !self.is_counted {
            self.cache.shared.part_of(self.id).count(|counted| counted.waits += 1);
            self.is_counted = true;
        }
        Pin::new(&mut self.ended).poll(context).map(|end| match end {
            End::Loaded | End::TooHeavy | End::Outdated => {
                self.cache.read(self.cache.shared.at_id(self.id), &self.key, V::clone).ok_or(WaitError::Missing)
            }
            End::Failed(why) => {
                let at = self.cache.shared.at_id(self.id);
                self.cache.or_left(at, &self.key, Err(WaitError::Failed(why.said())))
            }
        })
    }
}

impl<K: Hash + Eq + fmt::Debug, V, S: BuildHasher> fmt::Debug for Wait<K, V, S> {
    fn fmt(&self, f: &mut fmt::Formatter<'_>) -> fmt::Result {
        f.debug_struct("Wait").field("key", self.key()).finish_non_exhaustive()
    }
}
