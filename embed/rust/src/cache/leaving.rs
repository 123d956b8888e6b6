//! Why entries leave, and who is told.
use std::sync::atomic::{AtomicU8, Ordering::Relaxed};
use std::sync::Arc;

/// Why a value left its cache.
#[derive(Clone, Copy, Debug, PartialEq, Eq)]
pub enum RemovalCause {
    /// It had lived, or been idle, too long.
    Expired,
    /// Its key was invalidated, or changed, or was being changed as another value was put.
    Explicit,
    /// Another value was put in its place, of its key or of another key of its hash.
    Replaced,
    /// It made room for another.
    Size,
}

/// What is told of a value that left, once nobody sees it.
pub(super) type Listener<K, V> = Arc<dyn Fn(K, V, RemovalCause) + Send + Sync>;

/// The cause for which an entry left, where a call named the entry.
#[derive(Default)]
pub(super) struct Cause(AtomicU8);

impl Cause {
    const NAMED: [RemovalCause; 3] = [RemovalCause::Expired, RemovalCause::Explicit, RemovalCause::Replaced];

    /// Notes the cause, unless one was noted.
    pub fn note(&self, cause: RemovalCause) {
        let place = Cause::NAMED.iter().position(|named| *named == cause).map_or(0, |place| place + 1);
        // Under the lock of its part.
        if self.0.load(Relaxed) == 0 {
            self.0.store(place as u8, Relaxed);
        }
    }

    pub fn noted(&self) -> Option<RemovalCause> {
        let place = usize::from(self.0.load(Relaxed)).checked_sub(1)?;
        Cause::NAMED.get(place).copied()
    }
}
