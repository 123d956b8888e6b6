//! A reader keeps what it borrows and nothing else, and each value is dropped once.
use super::cache::{caught, panicking};
use crate::*;
use std::sync::atomic::{AtomicBool, AtomicUsize, Ordering::SeqCst};
use std::sync::Barrier;
use std::thread;

/// How many values there are, and what each is while it is there.
#[derive(Default)]
struct Alive(AtomicUsize);

struct Value<'a> {
    key: u64,
    is_there: AtomicBool,
    alive: &'a Alive,
}

impl Alive {
    fn value(&self, key: u64) -> Value<'_> {
        self.0.fetch_add(1, SeqCst);
        Value { key, is_there: AtomicBool::new(true), alive: self }
    }

    fn count(&self) -> usize {
        self.0.load(SeqCst)
    }
}

impl Value<'_> {
    fn is(&self, key: u64) -> bool {
        self.is_there.load(SeqCst) && self.key == key
    }
}

impl Drop for Value<'_> {
    fn drop(&mut self) {
        assert!(self.is_there.swap(false, SeqCst), "a value is dropped twice");
        self.alive.0.fetch_sub(1, SeqCst);
    }
}

type Values<'a> = Cache<u64, Value<'a>>;

fn cache<'a>(capacity: usize, threads: u32) -> Values<'a> {
    Cache::builder().capacity(capacity).threads(threads).open().unwrap()
}

#[test]
fn readers_that_stand_still_keep_their_own_values_alone() {
    for (capacity, threads) in [(1, 3), (10, 3), (2000, 9)] {
        let alive = Alive::default();
        let cache = cache(capacity, threads);
        let mut readers: Vec<_> = (1..threads).map(|_| cache.reader().unwrap()).collect();
        let stopped: Vec<_> = (0..)
            .zip(&mut readers)
            .map(|(key, reader)| {
                let found = reader.get_with(&key, || alive.value(key));
                // Some values stay in the cache for a while, and some leave it at once.
                (key % 2 == 0).then(|| cache.insert(key, alive.value(key)));
                found
            })
            .collect();
        let mut reader = cache.reader().unwrap();
        for key in 100..100 + 5 * capacity as u64 {
            assert!(reader.get_with(&key, || alive.value(key)).is_held());
            assert!(reader.update(&key, |_| alive.value(key)));
            assert!(cache.insert(key, alive.value(key)));
            assert!(alive.count() <= capacity + stopped.len() + 1, "{} are alive", alive.count());
        }
        cache.invalidate_all();
        assert!(cache.is_empty() && (0..).zip(&stopped).all(|(key, found)| found.is(key)));
        assert_eq!(alive.count(), stopped.len());
        drop(stopped);
        cache.invalidate_all();
        assert_eq!(alive.count(), 0);
    }
}

#[test]
fn what_is_borrowed_and_forgotten_is_let_go_by_the_next_get() {
    let alive = Alive::default();
    // Sixteen parts.
    let cache = cache(4096, 16);
    let mut reader = cache.reader().unwrap();
    for key in 0..200 {
        std::mem::forget(reader.get_with(&key, || alive.value(key)));
        cache.invalidate_all();
        assert_eq!(alive.count(), 1);
        assert!(reader.get(&key).is_none());
        std::mem::forget(reader.get_with(&key, || alive.value(key)));
        // Found again while it is held, and by the same rows.
        assert!(reader.get(&key).is_some_and(|found| found.is(key)));
        std::mem::forget(reader.get(&key));
        assert!(reader.get(&key).is_some_and(|found| found.is(key)));
        std::mem::forget(reader.get(&key));
    }
    drop(reader);
    cache.invalidate_all();
    assert_eq!(alive.count(), 0);
}

#[test]
fn a_get_that_finds_nothing_of_its_own_holds_nothing() {
    /// Of one hash.
    #[derive(PartialEq, Eq)]
    struct Key(u64);
    impl std::hash::Hash for Key {
        fn hash<H: std::hash::Hasher>(&self, state: &mut H) {
            state.write_u8(0);
        }
    }
    let alive = Alive::default();
    let cache = Cache::<Key, Value>::builder().time_to_live(std::time::Duration::from_millis(1)).open().unwrap();
    let mut reader = cache.reader().unwrap();
    for is_own in [false, true] {
        cache.insert(Key(1), alive.value(1));
        if is_own {
            thread::sleep(std::time::Duration::from_millis(2));
        }
        assert!(reader.get(&Key(if is_own { 1 } else { 2 })).is_none());
        cache.invalidate_all();
        assert_eq!(alive.count(), 0);
    }
}

/// Panics as it is dropped, where it is told to.
struct Fragile<'a>(bool, #[allow(dead_code)] Value<'a>);

impl Drop for Fragile<'_> {
    fn drop(&mut self) {
        if self.0 {
            panicking()
        }
    }
}

#[test]
fn drops_that_panic_beside_stopped_readers_leave_nothing_undropped() {
    let alive = Alive::default();
    let cache = Cache::<u64, Fragile>::builder().capacity(5).threads(3).open().unwrap();
    let mut readers: Vec<_> = (0..2).map(|_| cache.reader().unwrap()).collect();
    let mut reader = cache.reader().unwrap();
    let [one, two] = &mut readers[..] else { panic!() };
    let stopped = [(1, one), (2, two)].map(|(key, reader)| reader.get_with(&key, || Fragile(true, alive.value(key))));
    let mut panics = 0;
    for key in 10..200 {
        let get = || drop(reader.get_with(&key, || Fragile(key % 3 == 0, alive.value(key))));
        panics += u32::from(caught(get).is_none());
        assert!(alive.count() <= 5 + 2);
    }
    assert!(panics > 50 && stopped[0].1.is(1) && stopped[1].1.is(2));
    drop(stopped);
    _ = caught(|| cache.invalidate_all());
    assert!(alive.count() <= 1);
    drop((readers, reader));
    _ = caught(|| drop(cache));
    assert_eq!(alive.count(), 0);
}

#[test]
fn threads_that_stop_with_a_value_find_it_whole() {
    const THREADS: u64 = 8;
    let alive = Alive::default();
    for capacity in [5, 300] {
        let (cache, gate) = (cache(capacity, 2 * THREADS as u32), Barrier::new(THREADS as usize));
        thread::scope(|scope| {
            for number in 0..THREADS {
                let (cache, gate, alive) = (&cache, &gate, &alive);
                scope.spawn(move || {
                    let (mut still, mut reader) = (cache.reader().unwrap(), cache.reader().unwrap());
                    gate.wait();
                    for round in 0..40 {
                        let key = (number + round) % 12;
                        let found = still.get_with(&key, || alive.value(key));
                        for other in 0..100 {
                            let other = (other * number + round) % 40;
                            assert!(reader.get_with(&other, || alive.value(other)).is(other));
                            match other % 4 {
                                0 => _ = cache.invalidate(&key),
                                1 => _ = cache.insert(key, alive.value(key)),
                                2 => _ = reader.update(&key, |old| alive.value(old.key)),
                                _ => {}
                            }
                            assert!(found.is(key));
                        }
                        // With what each thread has made and not yet put, or got back and not yet dropped.
                        assert!(alive.count() <= capacity + 8 * THREADS as usize, "{} are alive", alive.count());
                    }
                });
            }
        });
        drop(cache);
        assert_eq!(alive.count(), 0);
    }
}
