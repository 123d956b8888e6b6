//! A value that has grown old is loaded anew by one caller, beside which others find it.
use crate::*;
use std::time::Duration;

/// In which each value is old as it comes.
fn cache() -> Cache<u64, u64> {
    Cache::builder().capacity(100).threads(2).refresh_after(Duration::ZERO).open().unwrap()
}

/// The request beside the value of key 1, which is that one.
fn request(cache: &Cache<u64, u64>, value: u64) -> Request<u64, u64> {
    let Sought::Aged(held, request) = cache.get_or_request(&1) else { panic!("another loads it, or it isn't old") };
    assert_eq!((held, *request.key()), (value, 1));
    request
}

#[test]
fn one_caller_loads_it_anew_and_others_find_it() {
    let cache = cache();
    assert!(cache.insert(1, 10));
    let request = request(&cache, 10);
    assert!(matches!(cache.get_or_request(&1), Sought::Held(10)));
    assert_eq!((cache.get(&1), cache.get_with(&1, || unreachable!())), (Some(10), 10));
    assert!(request.fill(11));
    assert_eq!((cache.get(&1), cache.len()), (Some(11), 1));
    let CacheStats { hits, misses, loads, outdated, .. } = cache.stats();
    assert_eq!((hits, misses, loads, outdated), (5, 0, 1, 0));
}

#[test]
fn a_reader_has_its_request_too() {
    let cache = cache();
    let (mut reader, mut other) = (cache.reader().unwrap(), cache.reader().unwrap());
    assert!(cache.insert(1, 10));
    let Sought::Aged(held, request) = reader.get_or_request(&1) else { panic!("it is old") };
    assert!(matches!(other.get_or_request(&1), Sought::Held(found) if *found == 10));
    // No reader is free: what the thread looks at under the lock is under way too.
    assert!(matches!(cache.get_or_request(&1), Sought::Held(10)));
    assert!(request.fill(11));
    assert_eq!((*held, other.get(&1).as_deref()), (10, Some(&11)));
}

#[test]
fn a_young_value_is_found_alone() {
    for builder in [Cache::builder(), Cache::builder().refresh_after(Duration::MAX)] {
        let cache: Cache<u64, u64> = builder.open().unwrap();
        cache.insert(1, 10);
        assert!(matches!(cache.get_or_request(&1), Sought::Held(10)));
    }
}

#[test]
fn where_its_load_fails_another_caller_loads_it() {
    let cache = cache();
    assert!(cache.insert(1, 10));
    request(&cache, 10).fail("the base is away");
    drop(request(&cache, 10));
    assert_eq!((cache.stats().failures, cache.get(&1)), (2, Some(10)));
    assert!(request(&cache, 10).fill(11));
    assert_eq!(cache.get(&1), Some(11));
}

type Change = fn(&Cache<u64, u64>);

#[test]
fn what_was_loaded_before_a_change_takes_no_place() {
    // And what the key has afterwards.
    let changes: [(Change, Option<u64>); 6] = [
        (|cache| assert!(cache.invalidate(&1)), None),
        (|cache| cache.invalidate_all(), None),
        (|cache| assert!(cache.insert(1, 20)), Some(20)),
        (|cache| assert!(cache.reader().unwrap().update(&1, |old| old + 5)), Some(15)),
        (|cache| assert_eq!(cache.invalidate_entries_if(|_, _| false), 0), Some(10)),
        (|cache| assert!(cache.invalidate(&1) && cache.get_with(&1, || 10) == 10), Some(10)),
    ];
    for (change, has) in changes {
        let cache = cache();
        assert!(cache.insert(1, 10));
        let old = request(&cache, 10);
        change(&cache);
        assert!(!old.fill(11));
        assert_eq!((cache.get(&1), cache.stats().outdated), (has, 1));
        if let Some(value) = has {
            assert!(request(&cache, value).fill(12) && cache.get(&1) == Some(12));
        }
    }
}

#[test]
fn while_a_value_is_updated_nobody_loads_it_anew() {
    let cache = cache();
    assert!(cache.insert(1, 10));
    let change = |old: &u64| {
        assert!(matches!(cache.get_or_request(&1), Sought::Held(10)));
        old + 5
    };
    assert!(cache.reader().unwrap().update(&1, change));
    assert!(request(&cache, 15).fill(16));
}

#[test]
fn rows_that_change_are_not_loaded_anew_meanwhile() {
    let view: View<u64> = View::builder().refresh_after(Duration::ZERO).open().unwrap();
    let rows = |a| Box::new([Row { a, b: 0 }]) as Box<[Row]>;
    assert!(view.insert(1, rows(1)));
    let Sought::Aged(_, before) = view.get_or_request(&1) else { panic!("they are old") };
    let change = view.change(&1);
    assert!(matches!(view.get_or_request(&1), Sought::Held(_)));
    assert!(!before.fill(rows(2)));
    assert_eq!(change.commit(&[Delta::minus(Row { a: 1, b: 0 }), Delta::plus(Row { a: 3, b: 0 })]), Ok(true));
    let Sought::Aged(held, after) = view.get_or_request(&1) else { panic!("they are old") };
    assert!(held == rows(3) && after.fill(rows(4)));
    assert_eq!(view.get(&1), Some(rows(4)));
}
