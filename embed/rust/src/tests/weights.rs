//! What entries weigh together stays within the bound, whatever is called, and what leaves gives its weight back.
use super::cache::{caught, panicking, roll, until_so_many_wait};
use crate::*;
use std::future::Future;
use std::pin::pin;
use std::sync::atomic::{AtomicU64, Ordering::SeqCst};
use std::sync::{Arc, Mutex};
use std::task::{Context, Poll, Waker};
use std::thread;
use std::time::Duration;

type Numbers = Cache<u64, u64>;

/// Of values that tell their weights, in one part.
fn weighed(most: u64) -> CacheBuilder<u64, u64> {
    Cache::builder().threads(1).weigher(|_, value: &u64| *value as u32).max_weight(most)
}

fn open(most: u64) -> Numbers {
    weighed(most).open().unwrap()
}

/// How many entries there are, and what they weigh, also by what each is.
fn held(cache: &Numbers) -> (usize, u64) {
    let weight = cache.weighted_size();
    assert_eq!(weight, cache.iter().map(|(_, value)| value).sum());
    (cache.len(), weight)
}

#[test]
fn entries_go_until_a_new_one_fits() {
    let cache = open(100);
    assert!((0..10).all(|key| cache.insert(key, 10)));
    assert_eq!((held(&cache), cache.stats().evictions), ((10, 100), 0));
    assert!(cache.insert(10, 10));
    assert_eq!((held(&cache), cache.stats().evictions), ((10, 100), 1));
    assert_eq!(cache.get_with(&11, || 55), 55);
    assert_eq!((held(&cache), cache.stats().evictions, cache.get(&11)), ((5, 95), 7, Some(55)));
    assert!(cache.insert(12, 100));
    assert_eq!((held(&cache), cache.get(&12)), ((1, 100), Some(100)));
}

#[test]
fn the_count_is_bounded_too() {
    let cache = weighed(100).capacity(3).open().unwrap();
    for key in 0..20 {
        assert!(cache.insert(key, key % 2));
        let (count, weight) = held(&cache);
        assert!(count <= 3 && weight <= 3);
    }
    assert_eq!((cache.len(), cache.stats().evictions), (3, 17));
}

#[test]
fn what_is_too_heavy_is_its_callers_alone() {
    let cache = open(10);
    let mut reader = cache.reader().unwrap();
    assert!(cache.insert(1, 4));
    let own = reader.get_with(&2, || 11);
    assert!(!own.is_held() && *own == 11);
    drop(own);
    let Sought::Missing(request) = reader.get_or_request(&2) else { panic!("it isn't held") };
    assert!(!request.fill(12));
    assert_eq!((held(&cache), cache.stats().refused, cache.stats().outdated), ((1, 4), 2, 0));
    // What the key had is out of date.
    assert!(!cache.insert(1, 13));
    assert_eq!((held(&cache), cache.get(&1), cache.stats().refused), ((0, 0), None, 3));
    assert!(cache.insert(1, 4) && !reader.update(&1, |old| old + 7));
    assert_eq!((held(&cache), cache.stats().evictions), ((0, 0), 0));
}

#[test]
fn what_is_too_heavy_is_not_put_where_nothing_is() {
    let cache = open(10);
    assert_eq!(cache.insert_if_absent(1, 11), Err(NotInserted::TooHeavy(11)));
    assert_eq!(cache.insert_if_absent(1, 10), Ok(()));
    assert_eq!(cache.insert_if_absent(1, 11), Err(NotInserted::Present(11)));
    assert!(!cache.upsert_with(&1, |had| had.map_or(12, |had| had + 1)));
    assert_eq!((cache.get(&1), cache.weighted_size()), (None, 0));
    assert!(cache.upsert_with(&1, |had| had.map_or(9, |had| had + 1)));
    assert!(cache.upsert_with(&1, |had| had.map_or(9, |had| had + 1)));
    assert_eq!((cache.get(&1), held(&cache)), (Some(10), (1, 10)));
}

/// A get by a load.
type Get = dyn Fn(&Numbers, &dyn Fn() -> u64) -> u64 + Sync;

/// Four get a value that is too heavy, by these calls. One of them loads while the others wait, and then those load at once.
fn all_load(gets: [&Get; 4]) {
    let cache: Numbers = Cache::builder().threads(4).weigher(|_, _| 9).max_weight(8).open().unwrap();
    let (loads, met) = (AtomicU64::new(0), Meeting::of(3));
    let load = || {
        match loads.fetch_add(1, SeqCst) {
            0 => until_so_many_wait(&cache, 3),
            _ => assert!(met.all_come(), "who waited loads in turn"),
        }
        7
    };
    thread::scope(|scope| {
        let threads = gets.map(|get| scope.spawn(|| get(&cache, &load)));
        assert_eq!(threads.map(|thread| thread.join().unwrap()), [7; 4]);
    });
    assert_eq!((loads.load(SeqCst), cache.stats().refused, cache.len()), (4, 4, 0));
}

/// So many threads that are to be somewhere at once.
struct Meeting {
    wanted: u64,
    there: AtomicU64,
}

impl Meeting {
    fn of(wanted: u64) -> Meeting {
        Meeting { wanted, there: AtomicU64::new(0) }
    }

    /// Whether all come. It gives up after a time that is long for any machine.
    fn all_come(&self) -> bool {
        self.there.fetch_add(1, SeqCst);
        let waits = (0..10_000).take_while(|_| self.there.load(SeqCst) < self.wanted);
        waits.for_each(|_| thread::sleep(Duration::from_millis(1)));
        self.there.load(SeqCst) >= self.wanted
    }
}

#[test]
fn who_waits_for_what_is_too_heavy_loads_it_too() {
    all_load([&|cache, load| cache.get_with(&1, load); 4]);
    all_load([&|cache, load| *cache.reader().unwrap().get_with(&1, load); 4]);
    all_load([&|cache, load| cache.get_many_with(&[&1], |_| vec![load()])[0]; 4]);
    all_load([&|cache, load| polled(cache.get_with_async(&1, async { load() })); 4]);
}

/// What a future comes to, polled until then.
fn polled<T>(future: impl Future<Output = T>) -> T {
    let (mut future, mut context) = (pin!(future), Context::from_waker(Waker::noop()));
    loop {
        match future.as_mut().poll(&mut context) {
            Poll::Ready(gave) => return gave,
            Poll::Pending => thread::yield_now(),
        }
    }
}

#[test]
fn an_update_to_a_heavier_value_lets_others_go() {
    for at in 0..5 {
        let cache = open(50);
        let mut reader = cache.reader().unwrap();
        assert!((0..5).all(|key| cache.insert(key, 10)));
        assert!(reader.update(&at, |old| old + 11));
        assert_eq!((reader.get(&at).as_deref(), held(&cache)), (Some(&21), (3, 41)));
        // The one that it takes the place of makes no room for it.
        assert!(reader.update(&at, |_| 50));
        assert_eq!((reader.get(&at).as_deref(), held(&cache), cache.stats().evictions), (Some(&50), (1, 50), 4));
        assert!(cache.insert(at, 49));
        assert_eq!((reader.get(&at).as_deref(), held(&cache), cache.stats().evictions), (Some(&49), (1, 49), 4));
    }
}

#[test]
fn whatever_leaves_gives_its_weight_back() {
    let calls: [fn(&Numbers); 6] = [
        |cache| assert!(cache.insert(1, 0)),
        |cache| assert!(cache.invalidate(&1)),
        |cache| cache.invalidate_all(),
        |cache| assert_eq!(cache.invalidate_entries_if(|_, _| true), 1),
        |cache| assert!(cache.reader().unwrap().update(&1, |_| 0)),
        |cache| assert!(cache.insert(2, 3) && cache.invalidate(&2)),
    ];
    for call in calls {
        let cache = weighed(10).capacity(1).threads(2).open().unwrap();
        let mut reader = cache.reader().unwrap();
        assert!(cache.insert(1, 7));
        call(&cache);
        assert_eq!(cache.weighted_size(), 0);
        // Also while it is borrowed.
        assert!(cache.insert(1, 7));
        let borrowed = reader.get(&1).unwrap();
        call(&cache);
        assert_eq!((cache.weighted_size(), *borrowed), (0, 7));
        assert!(cache.insert(3, 10));
        assert_eq!(cache.weighted_size(), 10);
    }
}

#[test]
fn what_expires_gives_its_weight_back_and_goes_first() {
    let lives = |_: &u64, value: &u64| (*value == 5).then_some(Duration::ZERO);
    let cache = weighed(20).expire_after(lives).open().unwrap();
    assert!(cache.insert(1, 5));
    cache.run_pending_tasks();
    assert_eq!((held(&cache), cache.stats().evictions), ((0, 0), 1));
    assert!(cache.insert(1, 9) && cache.insert(2, 5));
    assert_eq!(cache.get(&1), Some(9));
    assert!(cache.insert(3, 7));
    assert_eq!((cache.get(&1), cache.get(&3), cache.weighted_size()), (Some(9), Some(7), 16));
}

#[test]
fn a_weigher_that_panics_leaves_all_as_it_was() {
    let cache = Cache::<u64, u64>::builder().threads(1).weigher(|_, value: &u64| match *value {
        13 => panicking(),
        other => other as u32,
    });
    let cache = cache.max_weight(20).open().unwrap();
    let mut reader = cache.reader().unwrap();
    assert!(cache.insert(1, 4));
    assert_eq!(caught(|| cache.insert(1, 13)), None);
    assert_eq!(caught(|| *reader.get_with(&2, || 13)), None);
    assert_eq!(caught(|| reader.update(&1, |_| 13)), None);
    let Sought::Missing(request) = reader.get_or_request(&2) else { panic!("nobody loads it") };
    assert_eq!(caught(|| request.fill(13)), None);
    assert_eq!((held(&cache), cache.stats().failures), ((1, 4), 2));
    assert_eq!(*reader.get_with(&2, || 6), 6);
    assert_eq!(held(&cache), (2, 10));
}

#[test]
fn rows_of_a_view_are_weighed_after_each_change() {
    let row = |number| Row { a: number, b: 0 };
    let view = View::<u64>::builder().threads(1).max_weight(4).weigher(|_, rows| match rows.len() {
        3 => panicking(),
        count => count as u32,
    });
    let view = view.open().unwrap();
    assert!(view.insert(1, Box::new([row(1)])) && view.insert(2, Box::new([])));
    assert_eq!(view.change(&1).commit(&[Delta::plus(row(2))]), Ok(true));
    assert_eq!((view.weighted_size(), view.len()), (2, 2));
    assert_eq!(view.change(&1).commit(&[Delta::plus(row(3)), Delta::plus(row(4)), Delta::plus(row(5))]), Ok(false));
    assert_eq!((view.weighted_size(), view.len(), view.get(&1)), (0, 1, None));
    // Nobody knows what they weigh, and those that were there are out of date.
    assert!(view.insert(1, Box::new([row(1), row(2)])));
    assert_eq!(caught(|| view.change(&1).commit(&[Delta::plus(row(3))])), None);
    assert_eq!((view.weighted_size(), view.len(), view.get(&1)), (0, 1, None));
    assert!(view.insert(1, Box::new([row(1)])));
}

#[test]
fn the_listener_is_told_what_made_room() {
    let told = Arc::new(Mutex::new(Vec::new()));
    let tell = told.clone();
    let listener = move |key, value, why| tell.lock().unwrap().push((key, value, why));
    let cache = weighed(10).eviction_listener(listener).open().unwrap();
    assert!(cache.insert(1, 6) && cache.insert(2, 5));
    cache.run_pending_tasks();
    assert_eq!(*told.lock().unwrap(), [(1, 6, RemovalCause::Size)]);
    // One that is too heavy was never held.
    assert!(!cache.insert(3, 11) && !cache.insert(2, 12));
    cache.run_pending_tasks();
    assert_eq!(told.lock().unwrap()[1..], [(2, 5, RemovalCause::Explicit)]);
}

#[test]
fn weights_and_their_bound_are_told() {
    let told = |cache: &Numbers, name| cache.metrics().find(|metric| metric.0 == name).map(|metric| metric.1);
    let cache = open(30);
    assert!(cache.insert(1, 12));
    assert_eq!((told(&cache, "weight"), told(&cache, "max_weight")), (Some(12), Some(30)));
    // Without a bound they are added up, and without a weigher each is 1.
    let cache = Numbers::builder().threads(9).weigher(|_, _| u32::MAX).open().unwrap();
    assert!((0..300).all(|key| cache.insert(key, 0)));
    assert_eq!((cache.len(), cache.weighted_size()), (300, 300 * u64::from(u32::MAX)));
    assert_eq!(told(&cache, "max_weight"), Some(u64::MAX));
    let cache = Numbers::builder().threads(1).max_weight(2).open().unwrap();
    assert!((0..9).all(|key| cache.insert(key, 0)));
    assert_eq!((cache.len(), cache.weighted_size()), (2, 2));
    let cache = Numbers::builder().threads(1).open().unwrap();
    assert!(cache.insert(1, 5));
    assert_eq!((cache.weighted_size(), told(&cache, "weight")), (1, None));
}

#[test]
fn the_parts_have_the_bound_together() {
    let builder = Numbers::builder().capacity(10_000).threads(8).weigher(|_, value: &u64| *value as u32);
    let cache = builder.max_weight(803).open().unwrap();
    for key in 0..5000 {
        assert!(cache.insert(key, 1) && cache.weighted_size() <= 803);
    }
    assert_eq!(held(&cache), (803, 803));
    // The share of the eight parts is 100 or 101.
    assert!(!cache.insert(1, 102) && cache.insert(1, 100));
}

const MOST: u64 = 60;

/// Any calls of one thread, each of which finds no more than there may be.
fn any_calls(cache: &Numbers, mut dice: u64) {
    let mut draw = |below: u64| (roll(&mut dice) >> 32) % below;
    for _ in 0..5000 {
        let (key, value) = (draw(40), draw(12));
        match draw(16) {
            0..=3 => assert!(cache.insert(key, value)),
            4..=9 => assert!(cache.get_with(&key, || value) < 70),
            10 => _ = cache.invalidate(&key),
            11 => assert!(!cache.insert(key, 61 + value)),
            12 if value == 0 => cache.invalidate_all(),
            13 => cache.run_pending_tasks(),
            _ => _ = cache.reader().map(|mut reader| reader.update(&key, |_| value)),
        }
        assert!(cache.weighted_size() <= MOST);
    }
}

#[test]
fn threads_never_find_more_than_may_be() {
    for (capacity, life) in [(8, None), (300, None), (20, Some(Duration::from_micros(300)))] {
        let builder = weighed(MOST).capacity(capacity).threads(3);
        let cache = match life {
            Some(life) => builder.time_to_live(life).open().unwrap(),
            None => builder.open().unwrap(),
        };
        thread::scope(|scope| {
            (1..4).for_each(|dice| {
                _ = scope.spawn({
                    let cache = &cache;
                    move || any_calls(cache, dice)
                })
            });
        });
        cache.run_pending_tasks();
        if life.is_none() {
            held(&cache);
        }
        cache.invalidate_all();
        assert_eq!((cache.len(), cache.weighted_size()), (0, 0));
    }
}
