//! Calls that go through all entries see each that stays, and run nothing of the caller's under a lock.
use super::cache::{caught, panicking};
use crate::*;
use std::collections::HashMap;
use std::sync::{Arc, Mutex};
use std::time::Duration;

const ENTRIES: u64 = 500;

/// Of several parts, or of one, with more places than entries.
fn builder(threads: u32) -> CacheBuilder<u64, u64> {
    Cache::builder().capacity(4 * ENTRIES as usize).threads(threads)
}

fn filled(builder: CacheBuilder<u64, u64>) -> Cache<u64, u64> {
    let cache = builder.open().unwrap();
    for key in 0..ENTRIES {
        cache.insert(key, 10 * key);
    }
    cache
}

/// A cache, and the reader that is out, if one is.
struct Tried(Cache<u64, u64>, Option<CacheReader<u64, u64>>);

/// A cache of which the thread has a reader, and one of which it can have none.
fn with_and_without_a_reader() -> [Tried; 2] {
    let (with, without) = (filled(builder(4)), filled(builder(1)));
    let reader = without.reader();
    assert!(reader.is_some());
    [Tried(with, None), Tried(without, reader)]
}

#[test]
fn each_entry_comes_once() {
    for Tried(cache, _reader) in with_and_without_a_reader() {
        let mut all: Vec<_> = cache.iter().collect();
        all.sort();
        let wanted: Vec<_> = (0..ENTRIES).map(|key| (key, 10 * key)).collect();
        assert_eq!(all, wanted);
        assert_eq!((cache.stats().hits, cache.stats().misses), (0, 0));
        cache.invalidate_all();
        assert_eq!(cache.iter().count(), 0);
    }
}

#[test]
fn what_has_expired_does_not_come() {
    let cache = filled(builder(4).time_to_live(Duration::ZERO));
    assert_eq!((cache.len(), cache.iter().count()), (ENTRIES as usize, 0));
    assert_eq!(cache.invalidate_entries_if(|_, _| unreachable!()), 0);
}

#[test]
fn what_stays_comes_once_whatever_comes_and_goes() {
    for Tried(cache, _reader) in with_and_without_a_reader() {
        let mut seen = HashMap::new();
        for (turn, (key, value)) in cache.iter().enumerate() {
            assert_eq!(value % 10, if key % 2 == 0 { 0 } else { value % 2 });
            *seen.entry(key).or_insert(0) += 1;
            // Those with odd keys are put anew, or go.
            let odd = (turn as u64 * 14 + 1) % ENTRIES;
            match turn % 3 {
                0 => _ = cache.invalidate(&odd),
                _ => _ = cache.insert(odd, 10 * odd + 1),
            }
        }
        assert!((0..ENTRIES).step_by(2).all(|key| seen[&key] == 1));
    }
}

#[test]
fn entries_of_which_a_predicate_holds_go() {
    let told = Arc::new(Mutex::new(Vec::new()));
    let tell = told.clone();
    let cache = filled(builder(4).eviction_listener(move |key, _, why| tell.lock().unwrap().push((key, why))));
    let mut asked = 0;
    let taken = cache.invalidate_entries_if(|key, value| {
        assert_eq!(*value, 10 * key);
        asked += 1;
        key % 5 == 0
    });
    assert_eq!((asked, taken as u64, cache.len() as u64), (ENTRIES, ENTRIES / 5, ENTRIES - ENTRIES / 5));
    assert!((0..ENTRIES).all(|key| cache.contains_key(&key) == (key % 5 != 0)));
    let told = told.lock().unwrap();
    assert_eq!(told.len() as u64, ENTRIES / 5);
    assert!(told.iter().all(|(key, why)| key % 5 == 0 && *why == RemovalCause::Explicit));
}

#[test]
fn a_predicate_may_call_the_cache() {
    for Tried(cache, _reader) in with_and_without_a_reader() {
        // What it puts anew is not what it was asked of.
        let predicate = |key: &u64, value: &u64| {
            assert_eq!(cache.get(key), Some(*value));
            let is_old = value % 10 == 0;
            is_old && cache.insert(*key, value + 1)
        };
        assert_eq!(cache.invalidate_entries_if(predicate), 0);
        assert!((0..ENTRIES).all(|key| cache.get(&key) == Some(10 * key + 1)));
    }
}

#[test]
fn a_predicate_that_panics_leaves_few_entries() {
    for Tried(cache, _reader) in with_and_without_a_reader() {
        let predicate = |key: &u64, _: &u64| if *key == 7 { panicking() } else { true };
        assert_eq!(caught(|| cache.invalidate_entries_if(predicate)), None);
        assert!(cache.get(&7) == Some(70) && cache.len() <= 64);
        let left = cache.len();
        assert_eq!((cache.invalidate_entries_if(|_, _| true), cache.len()), (left, 0));
    }
}
