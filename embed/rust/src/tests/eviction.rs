//! What makes room in a cache that is full.
use crate::*;

/// How many of the keys are missed and loaded.
fn misses(reader: &mut CacheReader<u64, u64, impl std::hash::BuildHasher>, keys: std::ops::Range<u64>) -> u64 {
    let before = reader.cache().stats().misses;
    keys.for_each(|key| assert_eq!(*reader.get_with(&key, || key), key));
    reader.cache().stats().misses - before
}

#[test]
fn a_hot_set_far_below_the_capacity_stays_once_it_was_loaded_twice() {
    for (capacity, threads) in [(1, 1), (40, 1), (1000, 1), (5000, 8)] {
        let cache = Cache::<u64, u64>::builder().capacity(capacity).threads(threads).open().unwrap();
        let (mut reader, others) = (cache.reader().unwrap(), 3 * capacity as u64);
        misses(&mut reader, 0..others);
        let hot = others..others + (2 * capacity as u64).div_ceil(5);
        let count = hot.end - hot.start;
        assert_eq!(misses(&mut reader, hot.clone()), count);
        // Each was asked for once and went before those that were there. Some met others that had been found, and are
        // loaded once more.
        let again: u64 = (0..4).map(|_| misses(&mut reader, hot.clone())).sum();
        assert!(again <= count + count.div_ceil(4), "{again} of {count} are loaded again");
        assert_eq!((0..10).map(|_| misses(&mut reader, hot.clone())).sum::<u64>(), 0);
        assert!(cache.len() <= capacity);
    }
}

#[test]
fn an_entry_makes_room_as_a_load_lands_and_not_as_it_begins() {
    let cache = Cache::<u64, u64>::builder().capacity(5).threads(1).open().unwrap();
    let mut reader = cache.reader().unwrap();
    assert!((0..5).all(|key| cache.insert(key, key)));
    let mut request = |key| match reader.get_or_request(&key) {
        Sought::Missing(request) => request,
        _ => panic!("key {key} is missing"),
    };
    let requests: Vec<_> = (10..30).map(&mut request).collect();
    assert_eq!((cache.len(), cache.stats().evictions), (5, 0));
    assert!(requests.into_iter().all(|request| request.fill(0)));
    assert_eq!((cache.len(), cache.stats().evictions), (5, 20));
    assert!(cache.insert(19, 19) && cache.insert(40, 40));
    assert_eq!((cache.len(), cache.stats().refused), (5, 0));
}

#[test]
fn more_loads_than_are_known_at_a_time_keep_nothing() {
    let cache = Cache::<u64, u64>::builder().threads(1).open().unwrap();
    let mut reader = cache.reader().unwrap();
    let mut request = |key| match reader.get_or_request(&key) {
        Sought::Missing(request) => request,
        _ => panic!("key {key} is missing"),
    };
    let known: Vec<_> = (0..1024).map(&mut request).collect();
    assert!(!request(2000).fill(0) && !request(2000).fill(0));
    assert_eq!((cache.len(), cache.stats().refused), (0, 2));
    assert!(known.into_iter().all(|request| request.fill(0)));
    assert!(request(2000).fill(0));
}
