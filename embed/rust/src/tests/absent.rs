//! A value is put where its key has none, or in place of just the one that it was made of.
use super::cache::{caught, panicking, Same};
use crate::*;
use std::hash::BuildHasherDefault;
use std::sync::atomic::{AtomicUsize, Ordering::SeqCst};
use std::sync::{mpsc, Arc, Barrier};
use std::thread;
use std::time::Duration;

fn cache() -> Cache<u64, u64> {
    Cache::builder().capacity(1000).threads(4).open().unwrap()
}

/// In which all keys have one hash.
fn of_one_hash() -> Cache<u64, u64, BuildHasherDefault<Same>> {
    Cache::builder().hasher(BuildHasherDefault::default()).open().unwrap()
}

#[test]
fn a_value_is_put_where_there_is_none() {
    let cache = cache();
    assert_eq!(cache.insert_if_absent(1, 10), Ok(()));
    assert_eq!(cache.insert_if_absent(1, 11), Err(NotInserted::Present(11)));
    assert_eq!(cache.get(&1), Some(10));
    assert!(cache.invalidate(&1));
    assert_eq!(cache.insert_if_absent(1, 12), Ok(()));
    assert_eq!((cache.get(&1), cache.len()), (Some(12), 1));
    assert_eq!(NotInserted::Present(5).into_value(), 5);
}

#[test]
fn what_has_expired_is_absent() {
    let (left, came) = mpsc::channel();
    let left = move |key, value, cause| left.send((key, value, cause)).unwrap();
    let lives = |_: &u64, value: &u64| (*value < 20).then_some(Duration::ZERO);
    let cache: Cache<u64, u64> = Cache::builder().expire_after(lives).eviction_listener(left).open().unwrap();
    assert_eq!(cache.insert_if_absent(1, 10), Ok(()));
    assert_eq!(cache.insert_if_absent(1, 20), Ok(()));
    assert_eq!(cache.insert_if_absent(1, 21), Err(NotInserted::Present(21)));
    assert!(cache.insert(2, 11) && cache.upsert_with(&2, |old| old.map_or(22, |old| old + 10)));
    assert_eq!((cache.get(&1), cache.get(&2), cache.stats().evictions), (Some(20), Some(22), 2));
    assert!(came.try_iter().eq([(1, 10, RemovalCause::Expired), (2, 11, RemovalCause::Expired)]));
}

#[test]
fn another_key_of_the_hash_makes_way() {
    let cache = of_one_hash();
    assert_eq!((cache.insert_if_absent(1, 10), cache.insert_if_absent(2, 20)), (Ok(()), Ok(())));
    assert_eq!((cache.get(&1), cache.get(&2)), (None, Some(20)));
    assert!(cache.upsert_with(&3, |old| old.map_or(30, |_| unreachable!())));
    assert_eq!((cache.get(&2), cache.get(&3)), (None, Some(30)));
}

#[test]
fn what_is_loaded_meanwhile_is_not_held() {
    let puts: [fn(&Cache<u64, u64>); 2] =
        [|cache| assert_eq!(cache.insert_if_absent(1, 10), Ok(())), |cache| assert!(cache.upsert_with(&1, |_| 10))];
    for put in puts {
        let cache = cache();
        let Sought::Missing(request) = cache.get_or_request(&1) else { panic!("nobody loads it") };
        put(&cache);
        assert!(!request.fill(5));
        assert_eq!((cache.get(&1), cache.stats().outdated), (Some(10), 1));
    }
    // Where nothing is put, what is loaded stays under way.
    let cache = cache();
    cache.insert(1, 10);
    assert!(cache.insert_if_absent(1, 11).is_err());
    let Sought::Missing(request) = cache.get_or_request(&2) else { panic!("nobody loads it") };
    assert!(cache.insert_if_absent(1, 11).is_err() && request.fill(5));
}

#[test]
fn what_a_load_from_before_gives_as_the_value_is_made_is_not_held() {
    let cache = cache();
    let Sought::Missing(request) = cache.get_or_request(&1) else { panic!("nobody loads it") };
    let mut request = Some(request);
    assert!(cache.upsert_with(&1, |old| {
        assert!(old.is_none() && !request.take().unwrap().fill(5));
        10
    }));
    assert_eq!(cache.get(&1), Some(10));
}

#[test]
fn nothing_is_put_during_a_change() {
    let view: View<u64> = View::builder().open().unwrap();
    let rows = |a| Box::<[Row]>::from([Row { a, b: 0 }]);
    let change = view.change(&1);
    assert_eq!(view.insert_if_absent(1, rows(5)), Err(NotInserted::Changing(rows(5))));
    assert!(!view.upsert_with(&1, |_| rows(6)) && view.get(&1).is_none());
    drop(change);
    assert_eq!((view.insert_if_absent(1, rows(5)), view.stats().outdated), (Ok(()), 2));
    let change = view.change(&1);
    assert!(!view.upsert_with(&1, |_| rows(6)) && view.get(&1).is_none());
    assert_eq!(change.commit(&[]), Ok(false));
}

#[test]
fn of_many_who_put_one_does() {
    let (cache, gate, won) = (cache(), Barrier::new(4), AtomicUsize::new(0));
    thread::scope(|scope| {
        for thread in 0..4 {
            let (cache, gate, won) = (&cache, &gate, &won);
            scope.spawn(move || {
                for key in 0..200 {
                    gate.wait();
                    match cache.insert_if_absent(key, thread) {
                        Ok(()) => _ = won.fetch_add(1, SeqCst),
                        Err(refused) => assert_eq!(refused, NotInserted::Present(thread)),
                    }
                }
            });
        }
    });
    assert_eq!((won.into_inner(), cache.len()), (200, 200));
}

#[test]
fn no_upsert_is_lost() {
    let (cache, gate) = (cache(), Barrier::new(2));
    thread::scope(|scope| {
        for _ in 0..2 {
            scope.spawn(|| {
                gate.wait();
                for _ in 0..1000 {
                    assert!(cache.upsert_with(&1, |count| count.map_or(1, |count| count + 1)));
                }
            });
        }
    });
    assert_eq!(cache.get(&1), Some(2000));
}

#[test]
fn it_runs_again_on_what_came_meanwhile() {
    let cache = cache();
    let mut seen = Vec::new();
    assert!(cache.upsert_with(&1, |old| {
        seen.push(old.copied());
        match seen.len() {
            // The key gets a value, another, and loses it.
            1 => assert!(cache.insert(1, 10)),
            2 => assert!(cache.insert(1, 20)),
            3 => assert!(cache.invalidate(&1)),
            _ => {}
        }
        seen.len() as u64
    }));
    assert_eq!(seen, [None, Some(10), Some(20), None]);
    assert_eq!((cache.get(&1), cache.len()), (Some(4), 1));
}

#[test]
fn the_old_value_is_there_until_the_new_one_is_made() {
    let cache: Cache<u64, Arc<u64>> = Cache::builder().capacity(1).threads(1).open().unwrap();
    let old = Arc::new(1);
    assert!(cache.insert(1, old.clone()));
    let mut runs = 0;
    assert!(cache.upsert_with(&1, |held| {
        runs += 1;
        if let Some(held) = held {
            // It leaves, and would be freed by one of these.
            cache.invalidate_all();
            (2..10).for_each(|key| assert!(cache.insert(key, Arc::new(key))));
            assert_eq!((**held, Arc::strong_count(&old)), (1, 2));
        }
        Arc::new(7)
    }));
    assert_eq!((runs, cache.get(&1), Arc::strong_count(&old)), (2, Some(Arc::new(7)), 1));
}

#[test]
fn where_it_panics_nothing_is_kept() {
    let cache: Cache<u64, Arc<u64>> = Cache::builder().open().unwrap();
    let old = Arc::new(1);
    assert!(cache.insert(1, old.clone()));
    assert_eq!(caught(|| cache.upsert_with(&1, |_| panicking())), None);
    assert_eq!(cache.get(&1), Some(old.clone()));
    assert!(cache.invalidate(&1));
    assert_eq!(Arc::strong_count(&old), 1);
}
