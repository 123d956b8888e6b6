//! Any number of threads get without a reader in hand, of which as many take no lock as there are readers.
use super::cache::{caught, panicking};
use crate::*;
use std::cell::RefCell;
use std::sync::atomic::{AtomicUsize, Ordering::SeqCst};
use std::sync::{mpsc, Arc, Barrier, Mutex};
use std::thread;

fn cache<V>(threads: u32) -> Cache<u64, V> {
    Cache::builder().capacity(100).threads(threads).open().unwrap()
}

#[test]
fn more_threads_get_than_there_are_readers() {
    let (cache, loads, gate) = (cache(2), AtomicUsize::new(0), Barrier::new(8));
    thread::scope(|scope| {
        for _ in 0..8 {
            scope.spawn(|| {
                gate.wait();
                for key in 0..50u64 {
                    let load = || {
                        loads.fetch_add(1, SeqCst);
                        3 * key
                    };
                    assert_eq!(cache.get_with(&key, load), 3 * key);
                    assert_eq!(cache.get(&key), Some(3 * key));
                }
            });
        }
    });
    assert_eq!(loads.into_inner(), 50);
    let CacheStats { hits, misses, loads, .. } = cache.stats();
    assert_eq!((hits + misses, loads), (800, 50));
}

#[test]
fn a_thread_keeps_its_reader_until_it_ends() {
    let cache = cache(1);
    assert_eq!(cache.get(&1), None::<u8>);
    assert!(cache.reader().is_none());
    let other = cache.clone();
    // One that has none looks under the lock.
    thread::spawn(move || assert_eq!((other.get_with(&1, || 4), other.get(&1)), (4, Some(4)))).join().unwrap();
    assert_eq!((cache.get(&1), cache.stats().hits), (Some(4), 2));
    let (taken, other) = (cache.clone(), Cache::builder().threads(1).open().unwrap());
    let ends = {
        let other: Cache<u64, u8> = other.clone();
        thread::spawn(move || _ = (taken.get(&1), other.get(&1)))
    };
    ends.join().unwrap();
    assert!(other.reader().is_some());
}

#[test]
fn a_reader_that_is_lent_is_no_threads_own() {
    let cache = cache(1);
    let reader = cache.reader().unwrap();
    cache.insert(1, 7);
    assert_eq!(cache.get(&1), Some(7));
    drop(reader);
    assert_eq!(cache.get(&1), Some(7));
    assert!(cache.reader().is_none());
}

#[test]
fn keys_are_looked_for_without_being_counted() {
    let cache = cache(1);
    cache.insert(1, ());
    assert!(cache.contains_key(&1) && !cache.contains_key(&2));
    assert_eq!((cache.stats().hits, cache.stats().misses), (0, 0));
    thread::scope(|scope| {
        scope.spawn(|| assert!(cache.contains_key(&1) && !cache.contains_key(&2)));
    });
    assert_eq!((cache.stats().hits, cache.stats().misses), (0, 0));
}

/// A failure of a load for which `others` wait: what each of all was told.
fn fails_for<E: Send + Sync + 'static>(others: u64, why: E) -> Vec<Arc<E>> {
    let (cache, loads, told) = (cache::<u8>(2), AtomicUsize::new(0), Mutex::new(Vec::new()));
    let (begun, has_begun) = mpsc::channel();
    let why = Mutex::new(Some(why));
    let load = || {
        loads.fetch_add(1, SeqCst);
        begun.send(()).unwrap();
        while cache.stats().waits < others {
            thread::yield_now();
        }
        Err(why.lock().unwrap().take().expect("one load fails for all"))
    };
    let fails = || {
        let why = cache.try_get_with(&1, &load).unwrap_err();
        told.lock().unwrap().push(why);
    };
    thread::scope(|scope| {
        scope.spawn(fails);
        has_begun.recv().unwrap();
        (0..others).for_each(|_| _ = scope.spawn(fails));
    });
    assert_eq!((loads.load(SeqCst), cache.stats().failures), (1, 1));
    told.into_inner().unwrap()
}

#[test]
fn a_failure_is_shared_by_those_who_wait() {
    let told = fails_for(5, "the base is down");
    assert_eq!((told.len(), *told[0]), (6, "the base is down"));
    assert!(told.iter().all(|why| Arc::ptr_eq(why, &told[0])));
}

#[test]
fn who_fails_otherwise_or_waits_for_a_panic_loads_itself() {
    for panics in [false, true] {
        let cache = cache(1);
        let (begun, has_begun) = mpsc::channel();
        thread::scope(|scope| {
            let cache = &cache;
            scope.spawn(move || {
                let load = || {
                    begun.send(()).unwrap();
                    while cache.stats().waits == 0 {
                        thread::yield_now();
                    }
                    if panics {
                        panicking()
                    }
                    Err("a text")
                };
                caught(|| assert_eq!(*cache.try_get_with(&1, load).unwrap_err(), "a text"));
            });
            has_begun.recv().unwrap();
            assert_eq!(cache.try_get_with(&1, || Ok::<_, u32>(5)), Ok(5));
        });
        assert_eq!((cache.get(&1), cache.stats().failures), (Some(5), 1));
    }
}

/// Clones of it are made by looking for its cache's other keys.
struct Looking(Cache<u64, Looking>, u64);

impl Clone for Looking {
    fn clone(&self) -> Looking {
        assert!(self.0.contains_key(&self.1) && !self.0.contains_key(&99));
        Looking(self.0.clone(), self.1)
    }
}

#[test]
fn a_clone_may_look_for_keys_where_its_thread_has_a_reader() {
    for threads in [1, 8] {
        let cache = cache(threads);
        cache.insert(1, Looking(cache.clone(), 2));
        cache.insert(2, Looking(cache.clone(), 1));
        assert_eq!(cache.get(&1).map(|found| found.1), Some(2));
        assert_eq!(cache.get(&2).map(|found| found.1), Some(1));
        // It has handles of its own cache.
        cache.invalidate_all();
    }
}

#[test]
fn a_threads_reader_keeps_neither_values_nor_its_cache() {
    let value = Arc::new(());
    for _ in 0..3 {
        let cache = cache(1);
        assert!(cache.insert(1, value.clone()));
        let found = cache.get(&1);
        assert_eq!((found.is_some(), Arc::strong_count(&value)), (true, 3));
        assert!(cache.invalidate(&1));
        drop(found);
        assert_eq!(Arc::strong_count(&value), 1);
        assert!(cache.insert(1, value.clone()));
        drop(cache);
        assert_eq!(Arc::strong_count(&value), 1);
    }
}

/// Gets when its thread ends.
struct AtTheEnd(Cache<u64, u8>, mpsc::Sender<Option<u8>>);

impl Drop for AtTheEnd {
    fn drop(&mut self) {
        self.1.send(self.0.get(&1)).unwrap();
    }
}

thread_local! {
    static AT_THE_END: RefCell<Vec<AtTheEnd>> = const { RefCell::new(Vec::new()) };
}

#[test]
fn a_thread_gets_until_it_has_ended() {
    for first in [false, true] {
        let (tell, told) = mpsc::channel();
        let cache = cache(1);
        cache.insert(1, 9);
        let other = cache.clone();
        let ends = thread::spawn(move || {
            if first {
                assert_eq!(other.get(&1), Some(9));
            }
            AT_THE_END.with_borrow_mut(|all| all.push(AtTheEnd(other.clone(), tell)));
            assert_eq!(other.get(&1), Some(9));
        });
        ends.join().unwrap();
        assert_eq!(told.recv(), Ok(Some(9)));
        assert!(cache.reader().is_some());
    }
}
