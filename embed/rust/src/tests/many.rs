//! Gets of many keys have those that miss loaded by one call, each once, whoever misses them beside.
use super::cache::{caught, panicking};
use crate::*;
use std::sync::atomic::{AtomicUsize, Ordering::SeqCst};
use std::sync::mpsc;
use std::thread;

fn cache() -> Cache<u64, u64> {
    Cache::builder().max_capacity(100).threads(2).open().unwrap()
}

fn tenfold(keys: &[&u64]) -> Vec<u64> {
    keys.iter().map(|key| **key * 10).collect()
}

#[test]
fn one_call_loads_all_that_miss() {
    let cache = cache();
    cache.insert(2, 20);
    let mut told = Vec::new();
    let load = |keys: &[&u64]| {
        told.push(keys.iter().map(|key| **key).collect::<Vec<_>>());
        tenfold(keys)
    };
    // A key that is wanted twice is loaded once.
    assert_eq!(cache.get_many_with(&[&1, &2, &3, &1], load), [10, 20, 30, 10]);
    assert_eq!(told, [[1, 3]]);
    assert_eq!(cache.get_many(&[&3, &4, &1]), [Some(30), None, Some(10)]);
    assert_eq!(cache.get_many_with(&[&1, &2], |_| unreachable!()), [10, 20]);
    assert!(cache.get_many_with(&[], |_| unreachable!()).is_empty());
    assert_eq!((cache.stats().loads, cache.stats().failures), (2, 0));
}

#[test]
fn what_another_loads_is_waited_for() {
    let (cache, calls) = (cache(), AtomicUsize::new(0));
    let (begun, has_begun) = mpsc::channel();
    for fails in [false, true] {
        let key = if fails { 5 } else { 1 };
        thread::scope(|scope| {
            let (cache, begun) = (&cache, begun.clone());
            scope.spawn(move || {
                let waits = cache.stats().waits;
                let load = || {
                    begun.send(()).unwrap();
                    while cache.stats().waits == waits {
                        thread::yield_now();
                    }
                    if fails {
                        Err(())
                    } else {
                        Ok(10 * key)
                    }
                };
                assert_eq!(cache.try_get_with(&key, load).is_err(), fails);
            });
            has_begun.recv().unwrap();
            let load = |keys: &[&u64]| {
                calls.fetch_add(1, SeqCst);
                tenfold(keys)
            };
            assert_eq!(cache.get_many_with(&[&key, &(key + 1)], load), [10 * key, 10 * key + 10]);
        });
    }
    // Once for the other key, twice where the first one's load failed.
    assert_eq!(calls.into_inner(), 3);
}

#[test]
fn where_the_load_of_many_panics_or_gives_too_few_all_have_failed() {
    let cache = cache();
    assert_eq!(caught(|| cache.get_many_with(&[&1, &2], |_| panicking())), None);
    assert_eq!(cache.stats().failures, 2);
    let few = std::panic::catch_unwind(std::panic::AssertUnwindSafe(|| cache.get_many_with(&[&1, &2], |_| vec![10])));
    assert!(few.is_err());
    assert_eq!((cache.stats().failures, cache.len()), (4, 0));
    assert_eq!(cache.get_many_with(&[&1, &2], tenfold), [10, 20]);
}
