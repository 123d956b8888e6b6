//! Where what its user gave a cache panics or calls the cache, nothing stays locked, held back or under way.
use super::cache::{caught, panicking};
use crate::*;
use std::cell::{Cell, RefCell};
use std::hash::{Hash, Hasher};
use std::panic::{catch_unwind, AssertUnwindSafe};
use std::rc::Rc;
use std::sync::atomic::{AtomicUsize, Ordering::SeqCst};
use std::time::Duration;

thread_local! {
    /// What this thread's comparisons and clones of keys do first.
    static HOOK: RefCell<Option<Rc<dyn Fn()>>> = const { RefCell::new(None) };
}

fn hooked<T>(hook: impl Fn() + 'static, call: impl FnOnce() -> T) -> Option<T> {
    HOOK.set(Some(Rc::new(hook)));
    let gave = caught(call);
    HOOK.set(None);
    gave
}

/// Panics at its next call but so many.
fn panicking_after(calls: u64) -> impl Fn() {
    let made = Cell::new(0);
    move || {
        if made.replace(made.get() + 1) == calls {
            panicking()
        }
    }
}

fn run_hook() {
    let hook = HOOK.with_borrow(Clone::clone);
    hook.into_iter().for_each(|hook| hook());
}

#[derive(Debug)]
struct Key(u64);

impl PartialEq for Key {
    fn eq(&self, other: &Key) -> bool {
        run_hook();
        self.0 == other.0
    }
}

impl Eq for Key {}

impl Hash for Key {
    fn hash<H: Hasher>(&self, state: &mut H) {
        self.0.hash(state);
    }
}

impl Clone for Key {
    fn clone(&self) -> Key {
        run_hook();
        Key(self.0)
    }
}

/// Counts its drop, which panics where it is told to.
struct Fragile<'a>(bool, &'a AtomicUsize);

impl Drop for Fragile<'_> {
    fn drop(&mut self) {
        self.1.fetch_add(1, SeqCst);
        if self.0 {
            panicking()
        }
    }
}

fn row(a: u64) -> Row {
    Row { a, b: 1 }
}

#[test]
fn all_parts_are_invalidated_though_a_drop_panics() {
    let drops = AtomicUsize::new(0);
    let cache = Cache::<u64, Fragile>::builder().capacity(2000).threads(8).open().unwrap();
    for key in 0..1000 {
        cache.insert(key, Fragile(key % 3 == 0, &drops));
    }
    assert_eq!(cache.len(), 1000);
    assert!(caught(|| cache.invalidate_all()).is_none());
    assert_eq!((cache.len(), drops.load(SeqCst)), (0, 1000));
}

#[test]
fn a_reader_whose_load_met_a_panicking_drop_keeps_nothing() {
    let drops = AtomicUsize::new(0);
    let cache = Cache::<u64, Fragile>::builder().capacity(1).threads(1).open().unwrap();
    let mut reader = cache.reader().unwrap();
    cache.insert(0, Fragile(true, &drops));
    assert!(caught(|| reader.get_with(&1, || Fragile(false, &drops)).is_held()).is_none());
    for key in 2..100 {
        assert!(cache.insert(key, Fragile(false, &drops)));
    }
    assert_eq!((drops.load(SeqCst), cache.len()), (99, 1));
}

#[test]
fn a_change_whose_begin_panics_has_ended() {
    let view: View<u64> = View::builder().eviction_listener(|_, _, _| panicking()).open().unwrap();
    let mut reader = view.reader().unwrap();
    assert!(view.insert(1, Box::new([row(1)])));
    let found = reader.get(&1).unwrap();
    // It is held, so that the listener is told of it by the next call.
    assert!(view.invalidate(&1));
    drop(found);
    assert!(caught(|| drop(view.change(&1))).is_none());
    assert!(reader.get_with(&1, || Box::new([row(2)])).is_held());
}

#[test]
fn where_keys_cannot_be_compared_nothing_old_stays() {
    let view: View<Key> = View::builder().open().unwrap();
    let mut reader = view.reader().unwrap();
    let mut load = |number| {
        assert!(reader.get_with(&Key(1), || Box::new([row(number)])).is_held());
        assert_eq!(reader.get(&Key(1)).as_deref(), Some(&Box::from([row(number)])));
    };
    load(1);
    let change = view.change(&Key(1));
    assert!(hooked(panicking, || change.commit(&[Delta::plus(row(2))])).is_none());
    load(3);
    assert!(hooked(panicking, || view.invalidate(&Key(1))).is_none());
    load(4);
    assert_eq!(hooked(panicking, || view.insert(Key(1), Box::new([row(5)]))), Some(true), "nothing is compared");
    load(5);
    assert!(view.invalidate(&Key(1)));
    load(6);
    assert!(hooked(panicking, || view.reader().unwrap().get(&Key(1)).is_some()).is_none());
    load(6);
}

#[test]
fn a_comparison_that_calls_the_cache_is_told_so() {
    let cache: Cache<Key, u64> = Cache::builder().threads(1).open().unwrap();
    assert!(cache.insert(Key(1), 1));
    let inner = cache.clone();
    HOOK.set(Some(Rc::new(move || _ = inner.len())));
    let why = catch_unwind(AssertUnwindSafe(|| cache.invalidate(&Key(1)))).expect_err("it doesn't wait for itself");
    HOOK.set(None);
    assert_eq!(
        why.downcast_ref(),
        Some(&"an `Eq` of a cache's keys, or a `Clone` of its keys or values, calls the cache")
    );
    assert!(cache.is_empty() && cache.insert(Key(1), 3));
    assert_eq!(cache.reader().unwrap().get(&Key(1)).as_deref(), Some(&3));
}

#[test]
fn a_load_whose_key_cannot_be_cloned_has_failed() {
    let cache: Cache<Key, u64> = Cache::builder().threads(2).open().unwrap();
    let (mut reader, mut other) = (cache.reader().unwrap(), cache.reader().unwrap());
    // The key of a request is cloned for the cache and for the request, and is its value's then.
    for clones in 0..2 {
        assert!(hooked(panicking_after(clones), || _ = reader.get_or_request(&Key(1))).is_none());
    }
    let Sought::Missing(request) = reader.get_or_request(&Key(1)) else { panic!("nothing is under way") };
    assert_eq!(hooked(panicking, || request.fill(1)), Some(true));
    assert!(cache.invalidate(&Key(1)));
    assert!(hooked(panicking, || *other.get_with(&Key(1), || 2)).is_none());
    let found = other.get_with_timeout(&Key(1), Duration::from_secs(60), || 3);
    assert!(found.is_some_and(|found| *found == 3 && found.is_held()));
    assert_eq!(hooked(panicking, || reader.update(&Key(1), |old| old + 1)), None);
    assert_eq!(reader.get(&Key(1)).as_deref(), Some(&3));
}

#[test]
fn a_get_whose_key_cannot_be_cloned_leaves_nothing_under_way() {
    let cache: Cache<Key, u64> = Cache::builder().open().unwrap();
    // Before the load begins, and after.
    for clones in 0..2 {
        assert_eq!(hooked(panicking_after(clones), || cache.get_with(&Key(1), || unreachable!())), None);
        assert!(matches!(cache.reader().unwrap().get_or_request(&Key(1)), Sought::Missing(_)));
    }
}

/// Calls its cache as it is dropped.
struct Calling(Cache<u64, Calling>, u64);

impl Drop for Calling {
    fn drop(&mut self) {
        assert!(self.0.len() <= 5 && !self.0.invalidate(&(self.1 + 1000)));
    }
}

#[test]
fn each_drop_may_call_the_cache() {
    let cache = Cache::<u64, Calling>::builder().capacity(5).threads(2).open().unwrap();
    let (mut reader, mut other) = (cache.reader().unwrap(), cache.reader().unwrap());
    let value = |key| Calling(cache.clone(), key);
    for key in 0..40 {
        assert!(reader.get_with(&key, || value(key)).is_held());
        assert!(cache.insert(key, value(key)) && reader.update(&key, |_| value(key)));
    }
    let Sought::Missing(request) = other.get_or_request(&50) else { panic!() };
    cache.invalidate(&50);
    assert!(!request.fill(value(50)));
    let loaded = reader.get_with(&51, || {
        cache.invalidate_all();
        value(51)
    });
    assert!(!loaded.is_held());
    drop(loaded);
    cache.invalidate_all();
    assert!(cache.is_empty());
}
