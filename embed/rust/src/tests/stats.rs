//! What a cache counts, by cause.
use crate::*;
use std::collections::HashMap;
use std::hash::{BuildHasherDefault, Hasher};
use std::thread;
use std::time::Duration;

/// Hashes a number to a share of it.
#[derive(Default)]
struct Share<const OF: u64>(u64);

impl<const OF: u64> Hasher for Share<OF> {
    fn write(&mut self, _: &[u8]) {
        unreachable!("keys are numbers");
    }

    fn write_u64(&mut self, number: u64) {
        self.0 = number / OF;
    }

    fn finish(&self) -> u64 {
        self.0
    }
}

type By<const OF: u64> = BuildHasherDefault<Share<OF>>;

#[test]
fn what_had_expired_is_counted_apart_from_what_made_room() {
    let of_even_keys = |key: &u64, _: &u64| (key % 2 == 0).then_some(Duration::ZERO);
    let cache = Cache::<u64, u64>::builder().capacity(100).threads(1).expire_after(of_even_keys).open().unwrap();
    for key in 0..20 {
        assert!(cache.insert(key, key));
    }
    cache.run_pending_tasks();
    assert_eq!((cache.stats().evictions, cache.stats().expired), (10, 10));
    // Those that were replaced or invalidated were not evicted.
    assert!(cache.insert(1, 7) && cache.invalidate(&3));
    assert_eq!((cache.stats().evictions, cache.stats().expired), (10, 10));
    for key in (101..501).step_by(2) {
        assert!(cache.insert(key, key));
    }
    let stats = cache.stats();
    assert_eq!((stats.evictions + cache.len() as u64, stats.expired), (10 + 9 + 200, 10));
}

#[test]
fn what_expires_while_it_is_borrowed_is_counted_once_that_ends() {
    let cache = Cache::<u64, u64>::builder().time_to_idle(Duration::from_nanos(1)).open().unwrap();
    let mut reader = cache.reader().unwrap();
    let held = reader.get_with(&1, || 1);
    assert!(held.is_held());
    cache.run_pending_tasks();
    assert_eq!((cache.stats().evictions, cache.stats().expired), (1, 0));
    drop(held);
    cache.run_pending_tasks();
    assert_eq!((cache.stats().evictions, cache.stats().expired), (1, 1));
}

#[test]
fn keys_of_one_hash_are_counted_apart_from_loads_too_many() {
    let cache = Cache::<u64, u64>::builder().capacity(10).threads(1).hasher(By::<10>::default()).open().unwrap();
    for key in [10, 11, 12, 20] {
        assert_eq!(cache.get_with(&key, || key), key);
    }
    assert_eq!((cache.stats().refused, cache.stats().clashes), (2, 2));
    let requests: Vec<_> = (100..1125)
        .map(|tens| match cache.get_or_request(&(10 * tens)) {
            Sought::Missing(request) => request,
            _ => panic!("nobody has asked for {tens}"),
        })
        .collect();
    let refused: Vec<_> = requests.into_iter().map(|request| request.fill(1)).filter(|is_held| !is_held).collect();
    assert_eq!(refused.len(), 1);
    assert_eq!((cache.stats().refused, cache.stats().clashes), (3, 2));
}

#[test]
fn keys_whose_hashes_are_0_and_1_have_an_id_each() {
    let cache = Cache::<u64, u64>::builder().hasher(By::<1>::default()).open().unwrap();
    for key in 0..3 {
        assert!(cache.insert(key, key + 7));
    }
    assert!((0..3).all(|key| cache.get(&key) == Some(key + 7)));
    assert!(cache.invalidate(&0) && cache.get(&0).is_none() && cache.len() == 2);
}

#[test]
fn loads_are_timed_whether_they_give_a_value_or_fail() {
    const AWHILE: Duration = Duration::from_millis(2);
    let cache = Cache::<u64, u64>::builder().open().unwrap();
    assert_eq!(cache.stats().load_time, Duration::ZERO);
    let slow = || {
        thread::sleep(AWHILE);
        7
    };
    cache.get_with(&1, slow);
    let of_one = cache.stats().load_time;
    assert!(of_one >= AWHILE);
    cache.get_with(&1, slow);
    assert_eq!(cache.stats().load_time, of_one, "a hit loads nothing");
    assert!(cache.try_get_with(&2, || Err::<u64, _>(slow())).is_err());
    assert!(cache.stats().load_time >= of_one + AWHILE);
}

#[test]
fn an_exporter_takes_each_number_by_its_name() {
    let cache = Cache::<u64, u64>::builder().capacity(300).threads(1).open().unwrap();
    for key in [1, 2, 1] {
        cache.get_with(&key, || 7);
    }
    assert!(cache.try_get_with(&3, || Err::<u64, _>("no base")).is_err());
    let named: HashMap<_, _> = cache.metrics().collect();
    let stats = cache.stats();
    for (name, number) in [
        ("hits", 1),
        ("misses", 3),
        ("loads", 2),
        ("failures", 1),
        ("load_nanoseconds", stats.load_time.as_nanos() as u64),
        ("waits", 0),
        ("evictions", 0),
        ("expired", 0),
        ("refused", 0),
        ("clashes", 0),
        ("outdated", 0),
        ("entries", 2),
        ("capacity", 300),
    ] {
        assert_eq!(named.get(name), Some(&number), "{name}");
    }
    assert_eq!(cache.metrics().count(), 14, "each has a name of its own");
}
