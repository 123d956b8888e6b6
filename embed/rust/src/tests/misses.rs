//! Who misses a key while another loads it gets what that load gives, whenever it ends; and a load that has ended
//! leaves nothing behind.
use super::cache::{caught, panicking};
use crate::*;
use std::cell::{Cell, RefCell};
use std::future::Future;
use std::hash::{Hash, Hasher};
use std::pin::pin;
use std::sync::Arc;
use std::task::{Context, Poll, Waker};
use std::thread;
use std::time::Duration;

thread_local! {
    /// What this thread's next clone of a key does first.
    static ON_CLONE: RefCell<Option<Box<dyn FnOnce()>>> = const { RefCell::new(None) };
    /// Whether this thread's comparisons of keys panic.
    static EQ_PANICS: Cell<bool> = const { Cell::new(false) };
}

/// A key whose clones are counted.
struct Key(u64, Arc<()>);

impl Clone for Key {
    fn clone(&self) -> Key {
        ON_CLONE.take().into_iter().for_each(|hook| hook());
        Key(self.0, self.1.clone())
    }
}

impl PartialEq for Key {
    fn eq(&self, other: &Key) -> bool {
        if EQ_PANICS.get() {
            panicking()
        }
        self.0 == other.0
    }
}

impl Eq for Key {}

impl Hash for Key {
    fn hash<H: Hasher>(&self, state: &mut H) {
        self.0.hash(state);
    }
}

type Numbers = Cache<Key, u64>;

fn cache() -> Numbers {
    Cache::builder().threads(4).open().unwrap()
}

fn key() -> Key {
    Key(1, Arc::new(()))
}

fn request(cache: &Numbers, key: &Key) -> Request<Key, u64> {
    let Sought::Missing(request) = cache.get_or_request(key) else { panic!("nobody loads it") };
    request
}

fn wait(cache: &Numbers, key: &Key) -> Wait<Key, u64> {
    let Sought::UnderWay(wait) = cache.get_or_request(key) else { panic!("it is under way") };
    wait
}

/// What a wait comes to whose load has ended.
fn gave(wait: Wait<Key, u64>) -> Result<u64, WaitError> {
    match pin!(wait).poll(&mut Context::from_waker(Waker::noop())) {
        Poll::Ready(gave) => gave,
        Poll::Pending => panic!("it has ended"),
    }
}

#[test]
fn a_load_that_ends_between_a_gets_look_and_its_wait_is_found() {
    let (cache, key) = (cache(), key());
    let mut reader = cache.reader().unwrap();
    // A get clones its key once it has looked, and before it asks who loads it.
    let fills = |value| {
        let request = request(&cache, &key);
        ON_CLONE.set(Some(Box::new(move || assert!(request.fill(value)))));
    };
    fills(4);
    assert_eq!(*reader.get_with(&key, || unreachable!()), 4);
    assert!(cache.invalidate(&key));
    fills(5);
    assert_eq!(cache.get_with(&key, || unreachable!()), 5);
    assert!(cache.invalidate(&key));
    fills(6);
    assert!(matches!(cache.get_or_request(&key), Sought::Held(6)));
    assert_eq!(cache.stats().waits, 0);
}

#[test]
fn a_load_that_ends_before_the_first_look_at_it_is_told() {
    let (cache, key) = (cache(), key());
    let load = request(&cache, &key);
    let waits = [(); 2].map(|()| wait(&cache, &key));
    assert!(load.fill(4));
    assert!(waits.into_iter().all(|wait| matches!(gave(wait), Ok(4))));
    assert!(cache.invalidate(&key));
    let load = request(&cache, &key);
    let waits = [(); 2].map(|()| wait(&cache, &key));
    load.fail("the base is away");
    let told = waits.map(|wait| gave(wait).unwrap_err().to_string());
    assert_eq!(told, ["the base is away"; 2]);
    let load = request(&cache, &key);
    let outdated = wait(&cache, &key);
    assert!(!cache.invalidate(&key) && matches!(gave(outdated), Err(WaitError::Missing)));
    assert!(!load.fill(5));
}

type End = fn(&Numbers, &Key, Request<Key, u64>);

const ENDS: [End; 4] = [
    |_, _, request| assert!(request.fill(4)),
    |_, _, request| drop(request),
    |cache, key, request| assert!(!cache.invalidate(key) && !request.fill(5)),
    |cache, key, request| assert!(cache.insert(key.clone(), 4) && !request.fill(5)),
];

#[test]
fn who_waits_wakes_whoever_ends_the_load() {
    for end in ENDS {
        let (cache, key) = (cache(), key());
        let mut readers = [(); 3].map(|()| cache.reader().unwrap());
        let load = request(&cache, &key);
        let found = thread::scope(|scope| {
            // Longer than it takes, so that it ends also where nobody is woken.
            let get = |reader: &mut CacheReader<_, _>| {
                reader.get_with_timeout(&key, Duration::from_secs(20), || 4).map(|found| *found)
            };
            let gets = readers.each_mut().map(|reader| scope.spawn(move || get(reader)));
            while cache.stats().waits < 3 {
                thread::yield_now();
            }
            end(&cache, &key, load);
            gets.map(|get| get.join().unwrap())
        });
        assert_eq!(found, [Some(4); 3]);
    }
}

#[test]
fn a_load_that_has_ended_leaves_no_key_and_no_failure() {
    let (cache, key) = (cache(), key());
    let owners = || Arc::strong_count(&key.1);
    for is_waited_for in [false, true] {
        let begin = || {
            let load = request(&cache, &key);
            (load, is_waited_for.then(|| wait(&cache, &key)))
        };
        let (load, waits) = begin();
        assert!(load.fill(4));
        drop(waits);
        assert_eq!(owners(), 2, "but that of its entry");
        assert!(cache.invalidate(&key));
        let (load, waits) = begin();
        load.fail("the base is away");
        drop(waits);
        assert_eq!(owners(), 1);
        let (load, waits) = begin();
        cache.invalidate_all();
        drop((load, waits));
        assert_eq!(owners(), 1);
        let why = cache.try_get_with(&key, || Err(begin_wait(&cache, &key, is_waited_for))).unwrap_err();
        assert_eq!(Arc::strong_count(&why), 1);
        drop(why);
        assert_eq!(owners(), 1);
    }
}

/// A failure, of a load for which somebody waits or nobody does.
fn begin_wait(cache: &Numbers, key: &Key, is_waited_for: bool) -> &'static str {
    is_waited_for.then(|| wait(cache, key));
    "the base is away"
}

#[test]
fn a_panic_of_a_comparison_leaves_the_load_of_another() {
    let (cache, key) = (cache(), key());
    let mut reader = cache.reader().unwrap();
    let load = request(&cache, &key);
    let before = Arc::strong_count(&key.1);
    EQ_PANICS.set(true);
    assert!(caught(|| cache.get_with(&key, || unreachable!())).is_none());
    assert!(caught(|| *reader.get_with(&key, || unreachable!())).is_none());
    assert!(caught(|| _ = cache.get_or_request(&key)).is_none());
    assert!(caught(|| reader.get_waiting(&key, Duration::ZERO).is_ok()).is_none());
    EQ_PANICS.set(false);
    assert_eq!(Arc::strong_count(&key.1), before);
    let waits = wait(&cache, &key);
    assert!(load.fill(4) && matches!(gave(waits), Ok(4)));
    assert_eq!(cache.get(&key), Some(4));
}

#[test]
fn a_panic_of_a_comparison_leaves_nobody_waiting_for_what_ended() {
    // What has expired is there beside its load.
    let spans = Cache::builder().time_to_live(Duration::ZERO).stale_if_error(Duration::from_secs(3600));
    let (cache, key): (Numbers, Key) = (spans.open().unwrap(), key());
    assert!(cache.insert(key.clone(), 3));
    let load = request(&cache, &key);
    let waits = wait(&cache, &key);
    EQ_PANICS.set(true);
    assert!(caught(|| cache.invalidate(&key)).is_none());
    EQ_PANICS.set(false);
    assert!(matches!(gave(waits), Err(WaitError::Missing)));
    assert!(!load.fill(4));
}
