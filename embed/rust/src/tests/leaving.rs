//! A listener is given each value that left its cache, once, with the cause, and without a lock.
use super::cache::{caught, panicking};
use crate::*;
use std::sync::atomic::{AtomicUsize, Ordering::SeqCst};
use std::sync::{Arc, Mutex, OnceLock};
use std::time::Duration;

type Told = Arc<Mutex<Vec<(u64, u64, RemovalCause)>>>;

fn listened(builder: CacheBuilder<u64, u64>) -> (Cache<u64, u64>, Told) {
    let told = Told::default();
    let tell = told.clone();
    let listener = move |key, value, why| tell.lock().unwrap().push((key, value, why));
    (builder.threads(1).eviction_listener(listener).open().unwrap(), told)
}

/// What was told since, after a write that frees what nobody sees.
fn told(cache: &Cache<u64, u64>, told: &Told) -> Vec<(u64, u64, RemovalCause)> {
    cache.invalidate(&99);
    let mut all = std::mem::take(&mut *told.lock().unwrap());
    all.sort_by_key(|left| left.0);
    all
}

#[test]
fn each_cause_is_told() {
    let (cache, all) = listened(Cache::builder().capacity(2));
    cache.insert(1, 10);
    cache.insert(1, 11);
    assert_eq!(told(&cache, &all), [(1, 10, RemovalCause::Replaced)]);
    assert!(cache.reader().unwrap().update(&1, |old| old + 1));
    assert_eq!(told(&cache, &all), [(1, 11, RemovalCause::Replaced)]);
    assert!(cache.invalidate(&1));
    assert_eq!(told(&cache, &all), [(1, 12, RemovalCause::Explicit)]);
    for key in 2..5 {
        cache.insert(key, 10 * key);
    }
    let left = told(&cache, &all);
    assert_eq!((left.len(), left[0].2), (1, RemovalCause::Size));
    cache.invalidate_all();
    let left = told(&cache, &all);
    assert_eq!(left.iter().map(|left| left.2).collect::<Vec<_>>(), [RemovalCause::Explicit; 2]);
    // What was put since is not what was invalidated.
    for key in 5..8 {
        cache.insert(key, 10 * key);
    }
    assert_eq!(told(&cache, &all)[0].2, RemovalCause::Size);
    drop(cache);
    assert!(all.lock().unwrap().is_empty());
}

#[test]
fn what_has_expired_is_told_so() {
    let (cache, all) = listened(Cache::builder().time_to_live(Duration::ZERO));
    cache.insert(1, 10);
    assert_eq!(cache.get_with(&1, || 11), 11);
    assert_eq!(told(&cache, &all), [(1, 10, RemovalCause::Expired)]);
    let (cache, all) = listened(Cache::builder().capacity(1).time_to_live(Duration::ZERO));
    cache.insert(1, 10);
    cache.insert(2, 20);
    assert_eq!(told(&cache, &all), [(1, 10, RemovalCause::Expired)]);
}

#[test]
fn a_value_that_is_read_is_given_once_it_is_let_go() {
    let (cache, all) = listened(Cache::builder());
    let mut reader = cache.reader().unwrap();
    cache.insert(1, 10);
    let read = reader.get(&1).unwrap();
    cache.invalidate(&1);
    assert_eq!((told(&cache, &all), *read), (vec![], 10));
    drop(read);
    assert_eq!(told(&cache, &all), [(1, 10, RemovalCause::Explicit)]);
}

#[test]
fn a_listener_may_call_the_cache_and_panic() {
    let own: Arc<OnceLock<Cache<u64, u64>>> = Arc::default();
    let (known, calls) = (Arc::downgrade(&own), Arc::new(AtomicUsize::new(0)));
    let counts = calls.clone();
    let listener = move |key: u64, value, _| {
        counts.fetch_add(1, SeqCst);
        if key < 50 {
            known.upgrade().unwrap().get().unwrap().insert(key + 50, value);
        }
        panicking()
    };
    let cache = own.get_or_init(|| Cache::builder().threads(1).eviction_listener(listener).open().unwrap());
    cache.insert(1, 10);
    cache.insert(2, 20);
    assert_eq!(caught(|| cache.invalidate_all()), None);
    assert_eq!((calls.load(SeqCst), cache.get(&51), cache.get(&52), cache.len()), (2, Some(10), Some(20), 2));
}
