//! An entry lives as long as it is told of it, and no longer than all entries may.
use super::cache::{caught, panicking};
use crate::*;
use std::sync::atomic::{AtomicUsize, Ordering::SeqCst};
use std::sync::{Arc, Mutex, OnceLock};
use std::thread;
use std::time::Duration;

/// Of even keys the entries have expired as they come, of others they never do.
fn by_key<V>(key: &u64, _: &V) -> Option<Duration> {
    Some(if key % 2 == 0 { Duration::ZERO } else { Duration::MAX })
}

#[test]
fn each_entry_has_its_own_time() {
    let cache = Cache::<u64, u64>::builder().capacity(2000).threads(4).expire_after(by_key).open().unwrap();
    for key in 0..200 {
        assert_eq!(cache.get_with(&key, || key), key);
        assert_eq!(cache.get(&key).is_some(), key % 2 == 1);
    }
    assert_eq!((cache.len(), cache.iter().count()), (200, 100));
    cache.run_pending_tasks();
    assert_eq!((cache.len(), cache.stats().evictions), (100, 100));
    let mut keys: Vec<_> = cache.iter().map(|(key, _)| key).collect();
    keys.sort();
    assert!(keys.into_iter().eq((1..200).step_by(2)));
}

#[test]
fn the_shortest_of_its_times_counts() {
    let (short, long) = (Some(Duration::ZERO), Some(Duration::MAX));
    let opened = |all: Option<Duration>, own: Option<Duration>| {
        let builder = Cache::<u64, u64>::builder().expire_after(move |_, _| own);
        let builder = if let Some(all) = all { builder.time_to_live(all) } else { builder };
        builder.open().unwrap()
    };
    for (all, own, is_found) in [
        (None, None, true),
        (None, long, true),
        (None, short, false),
        (long, None, true),
        (long, short, false),
        (short, None, false),
        (short, long, false),
    ] {
        let cache = opened(all, own);
        assert!(cache.insert(1, 7));
        assert_eq!(cache.get(&1).is_some(), is_found, "{all:?} and {own:?}");
    }
    let cache = Cache::<u64, u64>::builder().expire_after(by_key).time_to_idle(Duration::ZERO).open().unwrap();
    assert!(cache.insert(1, 7) && cache.get(&1).is_none());
}

#[test]
fn whoever_puts_a_value_is_asked() {
    let asked: Arc<Mutex<Vec<(u64, u64)>>> = Arc::default();
    let ask = asked.clone();
    let lifetime = move |key: &u64, value: &u64| {
        ask.lock().unwrap().push((*key, *value));
        None
    };
    let cache = Cache::builder().expire_after(lifetime).open().unwrap();
    let mut reader = cache.reader().unwrap();
    cache.insert(1, 10);
    cache.get_with(&2, || 20);
    cache.get_many_with(&[&3], |_| vec![30]);
    drop(reader.get_with(&4, || 40));
    let Sought::Missing(request) = cache.get_or_request(&5) else { panic!("nobody has asked before") };
    assert!(request.fill(50) && reader.update(&5, |old| old + 1));
    assert_eq!(*asked.lock().unwrap(), [(1, 10), (2, 20), (3, 30), (4, 40), (5, 50), (5, 51)]);
}

#[test]
fn it_may_call_the_cache_and_panic() {
    let own: Arc<OnceLock<Cache<u64, u64>>> = Arc::default();
    let (known, calls) = (Arc::downgrade(&own), AtomicUsize::new(0));
    let lifetime = move |key: &u64, _: &u64| {
        let cache = known.upgrade().unwrap();
        // By the lock of each part.
        assert!(!cache.get().unwrap().contains_key(key) && cache.get().unwrap().len() < 10);
        if calls.fetch_add(1, SeqCst) < 3 {
            panicking()
        }
        None
    };
    let cache = own.get_or_init(|| Cache::builder().threads(1).expire_after(lifetime).open().unwrap());
    assert_eq!(caught(|| cache.insert(1, 10)), None);
    assert_eq!(caught(|| cache.get_with(&1, || 10)), None);
    let Sought::Missing(request) = cache.get_or_request(&1) else { panic!("it is not under way") };
    assert_eq!(caught(|| request.fill(10)), None);
    assert_eq!((cache.stats().failures, cache.len()), (2, 0));
    assert_eq!((cache.get_with(&1, || 10), cache.get(&1)), (10, Some(10)));
}

#[test]
fn a_load_tells_how_long_its_value_lives() {
    let cache = Cache::<u64, Loaded<u64>>::builder().expire_as_loaded().open().unwrap();
    let of = |time_to_live| Loaded { value: 7, time_to_live };
    assert_eq!(*cache.get_with(&1, || of(Some(Duration::ZERO))), 7);
    assert_eq!(*cache.get_with(&2, || of(Some(Duration::MAX))), 7);
    assert_eq!(*cache.get_with(&3, || 7.into()), 7);
    assert_eq!([1, 2, 3].map(|key| cache.get(&key).is_some()), [false, true, true]);
}

#[test]
fn rows_after_a_change_live_as_long_as_those_before() {
    for (time, is_found) in [(Duration::MAX, true), (Duration::ZERO, false)] {
        // Rows that come by a change are not asked of.
        let builder = View::<u64>::builder();
        let builder = builder.expire_after(move |_, rows| Some(if rows.len() == 1 { time } else { panicking() }));
        let (view, row) = (builder.open().unwrap(), Row { a: 1, b: 1 });
        assert!(view.insert(1, Box::new([row])));
        assert_eq!(view.change(&1).commit(&[Delta::plus(row)]), Ok(is_found));
        assert_eq!(view.get(&1).map(|rows| rows.len()), is_found.then_some(2));
    }
    let time = Duration::from_millis(40);
    let view = View::<u64>::builder().expire_after(move |_, _| Some(time)).open().unwrap();
    assert!(view.insert(1, Box::new([])));
    // On a machine that is busy they may have expired by now.
    _ = view.change(&1).commit(&[Delta::plus(Row { a: 1, b: 1 })]);
    thread::sleep(time + time / 4);
    assert!(view.get(&1).is_none());
}
