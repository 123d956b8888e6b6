//! A load that was outdated keeps nobody waiting: who misses its key afterwards loads anew, beside it.
use super::cache::{caught, panicking};
use crate::*;
use std::future::Future;
use std::pin::pin;
use std::task::{Context, Poll, Waker};
use std::thread;
use std::time::Duration;

fn cache() -> Cache<u64, u64> {
    Cache::builder().capacity(1000).threads(4).open().unwrap()
}

/// The request of a key that nobody asked for, or whose load was outdated.
fn request<V: Clone + 'static>(cache: &Cache<u64, V>, key: u64) -> Request<u64, V> {
    let Sought::Missing(request) = cache.get_or_request(&key) else { panic!("it is held, or waited for") };
    request
}

fn is_under_way(cache: &Cache<u64, u64>, key: u64) -> bool {
    matches!(cache.get_or_request(&key), Sought::UnderWay(_))
}

type Change = fn(&Cache<u64, u64>);

/// What outdates a load of key 1, and leaves it without a value.
const CHANGES: [Change; 5] = [
    |cache| assert!(!cache.invalidate(&1)),
    |cache| cache.invalidate_all(),
    |cache| assert!(cache.insert(1, 4) && cache.invalidate(&1)),
    // It changes what a get has loaded that was woken by it.
    |cache| _ = cache.reader().unwrap().update(&1, |_| 4),
    |cache| assert_eq!(cache.invalidate_entries_if(|_, _| false), 0),
];

#[test]
fn who_misses_after_a_change_loads_anew() {
    for change in CHANGES {
        let cache = cache();
        let old = request(&cache, 1);
        assert!(is_under_way(&cache, 1));
        change(&cache);
        let new = request(&cache, 1);
        // From then on there is one load again.
        assert!(is_under_way(&cache, 1));
        assert!(!old.fill(4) && is_under_way(&cache, 1));
        assert!(new.fill(5));
        assert_eq!((cache.get(&1), cache.stats().outdated, cache.stats().failures), (Some(5), 1, 0));
    }
}

#[test]
fn a_forgotten_request_ends_by_whatever_outdates_it() {
    for change in CHANGES {
        let cache = cache();
        let forgotten = request(&cache, 1);
        assert!(is_under_way(&cache, 1));
        change(&cache);
        assert_eq!((cache.get_with(&1, || 5), cache.get(&1)), (5, Some(5)));
        drop(forgotten);
    }
}

#[test]
fn a_forgotten_change_keeps_its_key_out_and_nobody_waiting() {
    let cache = cache();
    assert!(cache.insert(1, 4));
    std::mem::forget(cache.change(&1));
    assert_eq!(cache.get(&1), Some(4));
    cache.invalidate(&1);
    for value in 5..8 {
        assert_eq!((cache.get_with(&1, || value), cache.get(&1)), (value, None));
        assert!(!cache.insert(1, value));
    }
    // Other keys are held as before.
    assert!(cache.insert(2, 4) && cache.get(&2) == Some(4));
}

#[test]
fn a_load_of_another_key_stays_under_way() {
    let cache = cache();
    let old = request(&cache, 1);
    for key in 2..500 {
        assert!(cache.insert(key, key) && cache.invalidate(&key));
    }
    assert!(is_under_way(&cache, 1) && old.fill(4));
    assert_eq!(cache.get(&1), Some(4));
}

#[test]
fn all_loads_are_outdated_at_once() {
    let cache = cache();
    let old: Vec<_> = (0..200).map(|key| request(&cache, key)).collect();
    cache.invalidate_all();
    let new: Vec<_> = (0..200).map(|key| request(&cache, key)).collect();
    assert!(old.into_iter().all(|request| !request.fill(1)));
    assert!(new.into_iter().all(|request| request.fill(2)));
    assert!((0..200).all(|key| cache.get(&key) == Some(2)));
}

#[test]
fn those_who_wait_look_again() {
    for change in CHANGES {
        let cache = cache();
        let (mut reader, mut other) = (cache.reader().unwrap(), cache.reader().unwrap());
        let old = request(&cache, 1);
        thread::scope(|scope| {
            // Longer than it takes, so that it ends also where nobody is woken.
            let long = Duration::from_secs(20);
            let loads = scope.spawn(move || reader.get_with_timeout(&1, long, || 5).map(|found| *found));
            let waits = scope.spawn(move || other.get_waiting(&1, long).map(|found| *found));
            while cache.stats().waits < 2 {
                thread::yield_now();
            }
            change(&cache);
            // They find what the other has loaded, or what the change puts, or are told that nobody loads the key.
            assert!(matches!(loads.join().unwrap(), Some(4 | 5)));
            assert!(matches!(waits.join().unwrap(), Ok(4 | 5) | Err(WaitError::Missing)));
        });
        assert!(!old.fill(3));
    }
}

#[test]
fn what_is_put_is_found_by_those_who_wait() {
    let cache = cache();
    let old = request(&cache, 1);
    let Sought::UnderWay(wait) = cache.get_or_request(&1) else { panic!("it is under way") };
    let (mut wait, mut context) = (pin!(wait), Context::from_waker(Waker::noop()));
    assert!(wait.as_mut().poll(&mut context).is_pending());
    assert!(cache.insert(1, 4));
    // Though that load has not ended.
    assert!(matches!(wait.poll(&mut context), Poll::Ready(Ok(4))));
    assert!(!old.fill(3));
}

#[test]
fn a_failure_from_before_a_change_is_not_shared_by_who_comes_after_it() {
    for change in CHANGES {
        let cache = cache();
        let fails = || {
            change(&cache);
            drop(request(&cache, 1));
            assert_eq!(cache.try_get_with(&1, || Ok::<_, &str>(5)), Ok(5));
            Err("no such key")
        };
        assert_eq!(*cache.try_get_with(&1, fails).unwrap_err(), "no such key");
        assert_eq!((cache.get(&1), cache.stats().failures), (Some(5), 2));
    }
}

#[test]
fn an_outdated_load_that_panics_has_failed() {
    let cache = cache();
    let panics = || {
        cache.invalidate(&1);
        panicking()
    };
    assert_eq!(caught(|| cache.get_with(&1, panics)), None);
    assert_eq!((cache.stats().failures, cache.stats().outdated), (1, 0));
    assert_eq!(cache.get_with(&1, || 5), 5);
}

#[test]
fn a_load_from_within_a_change_ends_with_it() {
    let view: View<u64> = View::builder().open().unwrap();
    let rows = |a| Box::new([Row { a, b: 0 }]);
    let before = request(&view, 1);
    let change = view.change(&1);
    let within = request(&view, 1);
    assert!(!before.fill(rows(1)) && matches!(view.get_or_request(&1), Sought::UnderWay(_)));
    assert_eq!(change.commit(&[]), Ok(false));
    let after = request(&view, 1);
    assert!(!within.fill(rows(2)) && after.fill(rows(3)));
    assert_eq!(view.get(&1), Some(rows(3) as Box<[Row]>));
}
