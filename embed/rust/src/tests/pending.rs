//! What has expired goes, and what left is freed, without the next write.
use super::cache::{caught, panicking};
use crate::*;
use std::sync::atomic::{AtomicUsize, Ordering::SeqCst};
use std::sync::{Arc, Mutex};
use std::time::Duration;

const ENTRIES: u64 = 500;

/// Of several parts, with fewer entries than it may have.
fn builder<V>() -> CacheBuilder<u64, V> {
    Cache::builder().capacity(4 * ENTRIES as usize).threads(4)
}

#[test]
fn what_has_expired_goes() {
    let told = Arc::new(Mutex::new(Vec::new()));
    let tell = told.clone();
    let listener = move |key, value, why| tell.lock().unwrap().push((key, value, why));
    let cache = builder().time_to_live(Duration::ZERO).eviction_listener(listener).open().unwrap();
    for key in 0..ENTRIES {
        cache.insert(key, 10 * key);
    }
    assert_eq!((cache.len(), told.lock().unwrap().len()), (ENTRIES as usize, 0));
    cache.run_pending_tasks();
    assert_eq!((cache.len(), cache.stats().evictions), (0, ENTRIES));
    let mut told = std::mem::take(&mut *told.lock().unwrap());
    told.sort_by_key(|left| left.0);
    let all: Vec<_> = (0..ENTRIES).map(|key| (key, 10 * key, RemovalCause::Expired)).collect();
    assert_eq!(told, all);
    cache.run_pending_tasks();
    assert_eq!(cache.stats().evictions, ENTRIES);
}

#[test]
fn what_has_not_expired_stays() {
    for builder in [builder(), builder().time_to_live(Duration::MAX), builder().time_to_idle(Duration::MAX)] {
        let cache = builder.open().unwrap();
        for key in 0..ENTRIES {
            cache.insert(key, key);
        }
        cache.run_pending_tasks();
        assert_eq!((cache.len(), cache.stats().evictions), (ENTRIES as usize, 0));
    }
}

#[test]
fn what_left_is_freed_once_nobody_reads_it() {
    let cache = builder().open().unwrap();
    let mut reader = cache.reader().unwrap();
    let value = Arc::new(());
    cache.insert(1, value.clone());
    let read = reader.get(&1).unwrap();
    assert!(cache.invalidate(&1));
    cache.run_pending_tasks();
    assert_eq!(Arc::strong_count(&value), 2);
    drop(read);
    assert_eq!(Arc::strong_count(&value), 2);
    cache.run_pending_tasks();
    assert_eq!(Arc::strong_count(&value), 1);
}

#[test]
fn what_was_put_anew_expires_too() {
    let cache = builder().time_to_live(Duration::ZERO).open().unwrap();
    for _ in 0..3 {
        for key in 0..ENTRIES {
            cache.insert(key, key);
            cache.insert(key, key);
        }
        assert_eq!(cache.len(), ENTRIES as usize);
        cache.run_pending_tasks();
        assert!(cache.is_empty());
    }
}

/// Panics where it is dropped, and counts that.
struct Fragile(Arc<AtomicUsize>);

impl Drop for Fragile {
    fn drop(&mut self) {
        self.0.fetch_add(1, SeqCst);
        panicking()
    }
}

#[test]
fn a_drop_that_panics_keeps_no_other_value() {
    let drops = Arc::new(AtomicUsize::new(0));
    let cache = builder().time_to_live(Duration::ZERO).open().unwrap();
    for key in 0..ENTRIES {
        cache.insert(key, Fragile(drops.clone()));
    }
    assert_eq!(caught(|| cache.run_pending_tasks()), None);
    assert_eq!((drops.load(SeqCst) as u64, cache.len()), (ENTRIES, 0));
}
