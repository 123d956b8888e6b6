//! A value that has expired answers where its load fails, and no other get, until it is invalidated or its time is over.
use super::cache::{caught, panicking, Same};
use crate::*;
use std::future::{pending, poll_fn, ready, Future};
use std::hash::BuildHasherDefault;
use std::mem::replace;
use std::pin::pin;
use std::sync::mpsc;
use std::task::{Context, Poll, Waker};
use std::thread;
use std::time::Duration;

const AWAY: Result<u64, &str> = Err("the base is away");

/// In which each value has expired as it comes, and is left so long.
fn left_for(time: Duration) -> CacheBuilder<u64, u64> {
    Cache::builder().capacity(100).threads(4).time_to_live(Duration::ZERO).stale_if_error(time)
}

/// Which has the value 10 of key 1.
fn cache() -> Cache<u64, u64> {
    let cache = left_for(Duration::MAX).open().unwrap();
    assert!(cache.insert(1, 10));
    cache
}

/// The request of key 1.
fn request(cache: &Cache<u64, u64>) -> Request<u64, u64> {
    let Sought::Missing(request) = cache.get_or_request(&1) else { panic!("it is held, or another loads it") };
    request
}

#[test]
fn the_load_that_fails_finds_it_and_no_other_get() {
    let cache = cache();
    let mut reader = cache.reader().unwrap();
    for _ in 0..3 {
        assert_eq!((cache.get(&1), cache.contains_key(&1), reader.get(&1).is_some()), (None, false, false));
        assert_eq!(cache.try_get_with(&1, || AWAY), Ok(10));
        assert_eq!(reader.try_get_with(&1, || AWAY).as_deref(), Ok(&10));
        let long = Duration::from_secs(60);
        assert_eq!(reader.try_get_with_timeout(&1, long, || AWAY).as_deref(), Ok(&10));
    }
    assert_eq!((cache.iter().count(), cache.get_many(&[&1])), (0, vec![None]));
    assert!(matches!(reader.get_waiting(&1, Duration::ZERO), Err(WaitError::Missing)));
    assert_eq!((cache.stats().stale, cache.stats().failures, cache.stats().loads), (9, 9, 0));
    assert_eq!(cache.try_get_with(&2, || AWAY).map_err(|why| *why), AWAY);
}

#[test]
fn a_load_takes_its_place() {
    let (left, came) = mpsc::channel();
    let left = move |key, value, cause| left.send((key, value, cause)).unwrap();
    let cache = left_for(Duration::MAX).eviction_listener(left).open().unwrap();
    assert!(cache.insert(1, 10));
    assert_eq!((cache.get_with(&1, || 11), cache.get_many_with(&[&1], |_| vec![12])), (11, vec![12]));
    assert_eq!(*cache.reader().unwrap().get_with(&1, || 13), 13);
    assert!(request(&cache).fill(14));
    assert_eq!((cache.try_get_with(&1, || AWAY), cache.len()), (Ok(14), 1));
    assert!(came.try_iter().eq([10, 11, 12, 13].map(|value| (1, value, RemovalCause::Expired))));
    assert_eq!((cache.stats().evictions, cache.stats().loads), (4, 4));
}

#[test]
fn those_who_share_a_failure_share_it() {
    let cache = cache();
    let held = request(&cache);
    let Sought::UnderWay(wait) = cache.get_or_request(&1) else { panic!("it is under way") };
    thread::scope(|scope| {
        let waits = || cache.reader().unwrap().get_waiting(&1, Duration::from_secs(60)).map(|found| *found).ok();
        let waiter = scope.spawn(waits);
        while cache.stats().waits == 0 {
            thread::yield_now();
        }
        held.fail("the base is away");
        assert_eq!(waiter.join().unwrap(), Some(10));
    });
    let mut context = Context::from_waker(Waker::noop());
    assert!(matches!(pin!(wait).poll(&mut context), Poll::Ready(Ok(10))));
    // Of loads by the cache those who wait have it too, and begin none.
    thread::scope(|scope| {
        let mut waiter = None;
        let own = cache.try_get_with(&1, || {
            let waits = cache.stats().waits;
            let shares = || cache.try_get_with(&1, || -> Result<u64, &str> { unreachable!("it waits") });
            waiter = Some(scope.spawn(shares));
            while cache.stats().waits == waits {
                thread::yield_now();
            }
            AWAY
        });
        assert_eq!((own, waiter.unwrap().join().unwrap()), (Ok(10), Ok(10)));
    });
}

#[test]
fn a_task_has_it_too() {
    let cache = cache();
    let mut context = Context::from_waker(Waker::noop());
    let get = pin!(cache.try_get_with_async(&1, ready(AWAY)));
    assert_eq!(get.poll(&mut context), Poll::Ready(Ok(10)));
    // A task that is cancelled leaves the load to others.
    {
        let get = pin!(cache.try_get_with_async(&1, pending::<Result<u64, &str>>()));
        assert!(get.poll(&mut context).is_pending());
        assert!(matches!(cache.get_or_request(&1), Sought::UnderWay(_)));
    }
    // One that waits for another's load shares its failure.
    let mut is_begun = false;
    let fails = poll_fn(|_| if replace(&mut is_begun, true) { Poll::Ready(AWAY) } else { Poll::Pending });
    let mut loads = pin!(cache.try_get_with_async(&1, fails));
    let mut shares =
        pin!(cache.try_get_with_async(&1, poll_fn(|_| -> Poll<Result<u64, &str>> { unreachable!("it waits") })));
    assert!(loads.as_mut().poll(&mut context).is_pending() && shares.as_mut().poll(&mut context).is_pending());
    assert_eq!(loads.poll(&mut context), Poll::Ready(Ok(10)));
    assert_eq!(shares.poll(&mut context), Poll::Ready(Ok(10)));
    assert!(request(&cache).fill(11));
}

#[test]
fn one_load_is_under_way_beside_it() {
    let cache = cache();
    let own = request(&cache);
    assert!(matches!(cache.get_or_request(&1), Sought::UnderWay(_)));
    // It makes room for others, and the load goes on.
    (2..300).for_each(|key| assert!(cache.insert(key, key)));
    assert!(matches!(cache.get_or_request(&1), Sought::UnderWay(_)));
    assert!(own.fill(11));
    assert_eq!((cache.try_get_with(&1, || AWAY), cache.stats().outdated), (Ok(11), 0));
}

/// A cache with a load of key 1 beside its value, and with one that began once that had expired. Values of 100 are too heavy.
fn with_two_loads() -> (Cache<u64, u64>, Request<u64, u64>, Request<u64, u64>) {
    let life = |_: &u64, value: &u64| Some(if *value == 10 { Duration::from_millis(20) } else { Duration::ZERO });
    let weight = |_: &u64, value: &u64| if *value == 100 { 5 } else { 1 };
    let builder = Cache::builder().refresh_after(Duration::ZERO).stale_if_error(Duration::MAX).expire_after(life);
    let cache = builder.threads(1).max_weight(4).weigher(weight).open().unwrap();
    let older = loop {
        assert!(cache.insert(1, 10));
        if let Sought::Aged(10, older) = cache.get_or_request(&1) {
            break older;
        }
    };
    while cache.contains_key(&1) {
        thread::yield_now();
    }
    let younger = request(&cache);
    assert!(matches!(cache.get_or_request(&1), Sought::UnderWay(_)));
    (cache, older, younger)
}

#[test]
fn what_is_loaded_since_it_was_old_leaves_the_younger_load_under_way() {
    for (value, is_held) in [(11, true), (100, false)] {
        let (cache, older, younger) = with_two_loads();
        // Its value has expired as it comes, or is too heavy, and the younger load isn't begun again.
        assert_eq!((older.fill(value), cache.stats().refused), (is_held, u64::from(!is_held)));
        assert!(matches!(cache.get_or_request(&1), Sought::UnderWay(_)));
        assert!(younger.fill(12));
        assert_eq!((cache.try_get_with(&1, || AWAY), cache.stats().outdated), (Ok(12), 0));
    }
}

#[test]
fn a_load_beside_too_many_others_is_its_callers_own() {
    let cache = left_for(Duration::MAX).capacity(2000).threads(1).open().unwrap();
    let loads: Vec<_> = (0..1024)
        .map(|key| {
            assert!(cache.insert(key, key));
            let Sought::Missing(request) = cache.get_or_request(&key) else { panic!("nobody loads it") };
            request
        })
        .collect();
    assert!(cache.insert(5000, 1));
    let Sought::Missing(own) = cache.get_or_request(&5000) else { panic!("it is left") };
    assert!(matches!(cache.get_or_request(&5000), Sought::Missing(_)) && !own.fill(2));
    assert_eq!(cache.stats().refused, 1);
    assert!(matches!(cache.get_or_request(&0), Sought::UnderWay(_)));
    drop(loads);
    let Sought::Missing(own) = cache.get_or_request(&5000) else { panic!("nobody loads it") };
    assert!(own.fill(2));
}

#[test]
fn what_expires_as_it_is_changed_is_not_loaded_beside_that() {
    let builder = Cache::builder().time_to_live(Duration::from_millis(5)).stale_if_error(Duration::MAX);
    let cache: Cache<u64, u64> = builder.open().unwrap();
    assert!(cache.insert(1, 10));
    let mut begun = None;
    assert!(cache.upsert_with(&1, |_| {
        begun.get_or_insert_with(|| {
            while cache.contains_key(&1) {
                thread::yield_now();
            }
            request(&cache)
        });
        20
    }));
    assert!(!begun.unwrap().fill(15));
    while cache.contains_key(&1) {
        thread::yield_now();
    }
    assert_eq!(cache.try_get_with(&1, || AWAY), Ok(20));
}

#[test]
fn it_makes_room_no_sooner_than_others() {
    let lives = |key: &u64, _: &u64| (*key == 1).then_some(Duration::ZERO);
    for _ in 0..50 {
        let builder = Cache::<u64, u64>::builder().capacity(2).expire_after(lives);
        let cache = builder.stale_if_error(Duration::MAX).open().unwrap();
        assert!(cache.insert(1, 10) && cache.insert(2, 20));
        // It was found since, and the other wasn't.
        assert_eq!(cache.try_get_with(&1, || AWAY), Ok(10));
        assert!(cache.insert(3, 30));
        assert_eq!((cache.try_get_with(&1, || AWAY), cache.get(&2)), (Ok(10), None));
    }
}

#[test]
fn a_load_that_panics_goes_on_panicking() {
    let cache = cache();
    assert_eq!(caught(|| cache.get_with(&1, panicking)), None);
    assert_eq!(caught(|| cache.try_get_with(&1, || -> Result<u64, &str> { panicking() })), None);
    assert!(request(&cache).fill(11));
}

type Change = fn(&Cache<u64, u64>);

/// What takes the value of key 1, or outdates what is loaded for it.
const CHANGES: [(Change, bool); 9] = [
    (|cache| _ = cache.invalidate(&1), false),
    (|cache| cache.invalidate_all(), false),
    (|cache| assert!(cache.invalidate_entries_if(|key, _| *key == 1) <= 1), false),
    (|cache| drop(cache.change(&1)), false),
    (|cache| assert!(!cache.change(&1).commit_with(|_| unreachable!("it has expired"))), false),
    (|cache| assert!(!cache.reader().unwrap().update(&1, |_| unreachable!("it has expired"))), false),
    (|cache| assert!(cache.insert(1, 20)), true),
    (|cache| assert_eq!(cache.insert_if_absent(1, 20), Ok(())), true),
    (|cache| assert!(cache.upsert_with(&1, |old| old.map_or(20, |_| unreachable!("it has expired")))), true),
];

#[test]
fn after_a_change_it_never_answers() {
    for (change, puts) in CHANGES {
        let cache = cache();
        change(&cache);
        let after = if puts { Ok(20) } else { AWAY };
        assert_eq!(cache.try_get_with(&1, || AWAY).map_err(|why| *why), after);
        assert_eq!(cache.reader().unwrap().try_get_with(&1, || AWAY).map(|found| *found), after);
        assert_eq!(cache.len(), usize::from(puts));
    }
}

#[test]
fn a_load_that_a_change_outdates_puts_nothing_in_its_place() {
    for (change, puts) in CHANGES {
        let cache = cache();
        let old = request(&cache);
        change(&cache);
        let new = request(&cache);
        assert!(!old.fill(5) && matches!(cache.get_or_request(&1), Sought::UnderWay(_)));
        new.fail("the base is away");
        let after = if puts { Ok(20) } else { AWAY };
        assert_eq!(cache.try_get_with(&1, || AWAY).map_err(|why| *why), after);
        assert_eq!(cache.stats().outdated, 1);
    }
    // What is loaded while its key is being changed isn't held either.
    let cache = cache();
    let change = cache.change(&1);
    assert_eq!((cache.get_with(&1, || 5), cache.len()), (5, 0));
    drop(change);
    assert_eq!((cache.get_with(&1, || 6), cache.try_get_with(&1, || AWAY)), (6, Ok(6)));
}

#[test]
fn it_is_left_no_longer() {
    let cache = left_for(Duration::MAX).open().unwrap();
    assert!(cache.insert(1, 10));
    cache.run_pending_tasks();
    assert_eq!((cache.len(), cache.try_get_with(&1, || AWAY)), (1, Ok(10)));
    for builder in [left_for(Duration::ZERO), Cache::builder().time_to_live(Duration::ZERO)] {
        let cache = builder.open().unwrap();
        assert!(cache.insert(1, 10) && cache.insert(2, 20));
        assert_eq!(cache.try_get_with(&1, || AWAY).map_err(|why| *why), AWAY);
        assert_eq!(cache.len(), 1);
        cache.run_pending_tasks();
        assert_eq!((cache.len(), cache.stats().evictions, cache.stats().stale), (0, 2, 0));
    }
    // Where it answers at first it does no more once its time is over.
    let cache = left_for(Duration::from_millis(20)).open().unwrap();
    assert!(cache.insert(1, 10));
    while cache.try_get_with(&1, || AWAY).is_ok() {
        thread::yield_now();
    }
    cache.run_pending_tasks();
    assert!(cache.is_empty());
    // Nor once it is over as the load fails.
    assert!(cache.insert(1, 10));
    let fails = || {
        thread::sleep(Duration::from_millis(20));
        AWAY
    };
    assert_eq!(cache.try_get_with(&1, fails).map_err(|why| *why), AWAY);
}

#[test]
fn so_is_what_was_idle() {
    let builder = Cache::<u64, u64>::builder().time_to_idle(Duration::ZERO).stale_if_error(Duration::MAX);
    let cache = builder.open().unwrap();
    assert!(cache.insert(1, 10));
    assert_eq!((cache.get(&1), cache.try_get_with(&1, || AWAY)), (None, Ok(10)));
    cache.run_pending_tasks();
    assert_eq!(cache.len(), 1);
}

#[test]
fn another_key_of_the_hash_takes_its_place() {
    let cache = left_for(Duration::MAX).hasher(BuildHasherDefault::<Same>::default()).open().unwrap();
    assert!(cache.insert(1, 10));
    assert_eq!(cache.try_get_with(&2, || AWAY).map_err(|why| *why), AWAY);
    assert_eq!(cache.try_get_with(&1, || AWAY).map_err(|why| *why), AWAY, "it has gone");
    assert_eq!((cache.get_with(&2, || 20), cache.try_get_with(&2, || AWAY)), (20, Ok(20)));
    // One that lives stays, and is nothing that is left of the other.
    let builder = Cache::<u64, u64>::builder().hasher(BuildHasherDefault::<Same>::default());
    let cache = builder.stale_if_error(Duration::MAX).open().unwrap();
    assert!(cache.insert(1, 10));
    assert_eq!(cache.try_get_with(&2, || AWAY).map_err(|why| *why), AWAY);
    assert!(cache.reader().unwrap().try_get_with(&2, || AWAY).is_err());
    assert_eq!(cache.get(&1), Some(10));
}
