//! What a number of the cache refers to.
use super::expiry::Life;
use super::leaving::Cause;
use super::seats::Seat;
use std::sync::atomic::{AtomicBool, AtomicU64};
use std::thread::ThreadId;

/// A value with its key, in a box of its own that the store owns. The two stand first, since a hit reads no more: so mostly it
/// reads one line of memory.
pub(super) struct Entry<K, V> {
    pub key: K,
    pub value: V,
    pub id: u64,
    pub life: Life,
    /// How much it weighs, in a cache where that counts.
    pub weight: u32,
    /// The thread by whose load or call the value came: none where it came by a request, whose load may have run anywhere.
    pub maker: Option<ThreadId>,
    /// When it was last found, as far as the time to idle asks.
    pub touched: AtomicU64,
    /// Which of its part's turns it came by, or was outdated by since: then what was loaded beside it is not held.
    pub turn: AtomicU64,
    /// Whether another value is loaded beside it, or none may be. It is written under the lock.
    pub refreshing: AtomicBool,
    pub seat: Seat,
    pub cause: Cause,
}

impl<K, V> Entry<K, V> {
    /// One whose value comes by that thread.
    pub fn of(maker: Option<ThreadId>, id: u64, key: K, value: V, life: Life) -> Entry<K, V> {
        Entry {
            key,
            value,
            id,
            life,
            weight: 1,
            maker,
            touched: AtomicU64::new(life.born),
            turn: AtomicU64::new(0),
            refreshing: AtomicBool::new(false),
            seat: 0,
            cause: Cause::default(),
        }
    }
}
