//! A cache loads each missing value once, never gives one that was invalidated, and drops each once.
pub(super) use super::chance::{caught, panicking, roll};
use crate::*;
use std::cell::Cell;
use std::hash::{BuildHasher, BuildHasherDefault, Hasher};
use std::sync::atomic::{AtomicU64, AtomicUsize, Ordering::SeqCst};
use std::sync::{mpsc, Barrier, Mutex};
use std::thread;
use std::time::{Duration, Instant};

const LONG: Duration = Duration::from_secs(3600);

/// Hashes each key to the same number.
#[derive(Default)]
pub(super) struct Same;

impl Hasher for Same {
    fn write(&mut self, _: &[u8]) {}

    fn finish(&self) -> u64 {
        7
    }
}

fn cache<V: Send + Sync>(capacity: usize) -> Cache<u64, V> {
    Cache::builder().capacity(capacity).threads(8).open().unwrap()
}

#[test]
fn a_value_is_loaded_once_and_then_found() {
    let cache = Cache::<String, usize>::builder().open().unwrap();
    let mut reader = cache.reader().unwrap();
    assert!(reader.get("four").is_none());
    let loaded = reader.get_with("four", || 4);
    assert!(loaded.is_held() && *loaded == 4 && loaded.key() == "four");
    drop(loaded);
    assert_eq!(*reader.get_with("four", || unreachable!()), 4);
    assert_eq!((cache.len(), cache.capacity(), cache.is_empty()), (1, 1000, false));
    let counted = cache.stats();
    let wanted = CacheStats { hits: 1, misses: 2, loads: 1, load_time: counted.load_time, ..CacheStats::default() };
    assert_eq!(counted, wanted);
}

#[test]
fn those_who_miss_together_wait_for_one_load() {
    let cache = cache(10);
    let (loads, gate) = (AtomicUsize::new(0), Barrier::new(8));
    thread::scope(|scope| {
        for _ in 0..8 {
            scope.spawn(|| {
                let mut reader = cache.reader().unwrap();
                gate.wait();
                let found = reader.get_with(&1, || {
                    thread::sleep(Duration::from_millis(20));
                    loads.fetch_add(1, SeqCst)
                });
                assert_eq!(*found, 0);
            });
        }
    });
    assert_eq!(loads.into_inner(), 1);
    let CacheStats { hits, misses, waits, .. } = cache.stats();
    assert_eq!((hits + misses, waits <= 7), (8, true));
}

#[test]
fn where_a_load_fails_or_panics_one_of_those_who_wait_tries() {
    let cache = cache(10);
    for panics in [false, true] {
        let key = u64::from(panics);
        let (begun, has_begun) = mpsc::channel();
        let (end, may_end) = mpsc::channel();
        thread::scope(|scope| {
            let cache = &cache;
            scope.spawn(move || {
                let mut reader = cache.reader().unwrap();
                let load = || {
                    begun.send(()).unwrap();
                    may_end.recv().unwrap();
                    if panics {
                        panicking()
                    } else {
                        Err(3)
                    }
                };
                let failed = caught(|| reader.try_get_with(&key, load).map(|found| *found));
                assert_eq!(failed, (!panics).then_some(Err(3)));
            });
            has_begun.recv().unwrap();
            let mut reader = cache.reader().unwrap();
            let waits = Duration::from_millis(1);
            let timed_out = reader.try_get_with_timeout(&key, waits, || -> Result<u8, ()> { unreachable!() });
            assert_eq!(timed_out.err(), Some(LoadError::TimedOut));
            assert!(reader.get_with_timeout(&key, waits, || unreachable!()).is_none());
            end.send(()).unwrap();
            assert_eq!(*reader.get_with(&key, || 9), 9);
        });
        assert_eq!(cache.reader().unwrap().get(&key).as_deref(), Some(&9));
    }
    assert_eq!(cache.stats().failures, 2);
}

#[test]
fn what_was_loaded_before_an_invalidation_is_its_loaders_alone() {
    let cache = cache(10);
    let mut reader = cache.reader().unwrap();
    for all in [false, true] {
        let loaded = reader.get_with(&1, || {
            if all {
                cache.invalidate_all();
            } else {
                assert!(!cache.invalidate(&1));
            }
            3
        });
        assert!(!loaded.is_held() && *loaded == 3);
        drop(loaded);
        assert!(reader.get(&1).is_none());
        assert_eq!(*reader.get_with(&1, || 4), 4);
        assert!(cache.invalidate(&1) && cache.is_empty());
    }
}

#[test]
fn what_was_inserted_within_a_load_stays() {
    let cache = cache(10);
    let mut reader = cache.reader().unwrap();
    let loaded = reader.get_with(&1, || {
        assert!(cache.insert(1, 5));
        3
    });
    assert!(!loaded.is_held() && *loaded == 3);
    drop(loaded);
    assert_eq!(reader.get(&1).as_deref(), Some(&5));
}

/// Until so many gets have begun to wait.
pub(super) fn until_so_many_wait(cache: &Cache<u64, u64>, waits: u64) {
    while cache.stats().waits < waits {
        thread::yield_now();
    }
}

#[test]
fn a_request_is_one_callers_until_it_is_filled_or_fails() {
    let cache = cache(10);
    let mut reader = cache.reader().unwrap();
    let mut other = cache.reader().unwrap();
    let Sought::Missing(request) = reader.get_or_request(&1) else { panic!() };
    assert!(*request.key() == 1 && matches!(other.get_or_request(&1), Sought::UnderWay(_)));
    thread::scope(|scope| {
        scope.spawn(|| assert_eq!(reader.get_waiting(&1, LONG).unwrap_err().to_string(), "the base is away"));
        until_so_many_wait(&cache, 1);
        request.fail("the base is away");
    });
    let Sought::Missing(request) = other.get_or_request(&1) else { panic!() };
    thread::scope(|scope| {
        scope.spawn(|| assert_eq!(reader.get_waiting(&1, LONG).as_deref().unwrap(), &7));
        thread::sleep(Duration::from_millis(10));
        assert!(request.fill(7));
    });
    assert!(matches!(reader.get_or_request(&1), Sought::Held(found) if *found == 7));
    let Sought::Missing(request) = other.get_or_request(&2) else { panic!() };
    assert!(matches!(reader.get_waiting(&2, Duration::from_millis(1)), Err(WaitError::TimedOut)));
    cache.invalidate(&2);
    assert!(!request.fill(8) && matches!(reader.get_waiting(&2, LONG), Err(WaitError::Missing)));
    let Sought::Missing(request) = other.get_or_request(&3) else { panic!() };
    let waits = cache.stats().waits;
    thread::scope(|scope| {
        scope.spawn(|| assert!(matches!(reader.get_waiting(&3, LONG), Err(WaitError::Failed(None)))));
        until_so_many_wait(&cache, waits + 1);
        drop(request);
    });
    assert_eq!((cache.stats().failures, cache.stats().outdated, cache.stats().refused), (2, 1, 0));
}

#[test]
fn a_borrowed_value_stays_whatever_happens_to_its_key() {
    let cache = cache(10);
    let mut reader = cache.reader().unwrap();
    cache.insert(1, vec![1]);
    let found = reader.get(&1).unwrap();
    cache.insert(1, vec![2]);
    cache.invalidate(&1);
    cache.insert(1, vec![3]);
    assert_eq!(*found, [1]);
    std::mem::forget(found);
    assert_eq!(reader.get(&1).as_deref(), Some(&vec![3]));
}

#[test]
fn an_update_is_made_of_the_value_that_it_replaces() {
    let cache = cache(10);
    let mut reader = cache.reader().unwrap();
    assert!(!reader.update(&1, |_| unreachable!()));
    cache.insert(1, 5);
    let tries = Cell::new(0);
    let change = |old: &u64| {
        if tries.replace(tries.get() + 1) == 0 {
            cache.insert(1, 7);
        }
        old * 10
    };
    assert!(reader.update(&1, change));
    assert_eq!((tries.get(), reader.get(&1).as_deref()), (2, Some(&70)));
}

#[test]
fn what_was_loaded_before_an_update_is_not_held() {
    let cache = cache(10);
    let (mut reader, mut other) = (cache.reader().unwrap(), cache.reader().unwrap());
    let Sought::Missing(request) = other.get_or_request(&1) else { panic!() };
    assert!(!reader.update(&1, |_| unreachable!()));
    assert!(!request.fill(5));
    assert!(reader.get(&1).is_none());
    let loaded = reader.get_with(&1, || {
        assert!(!other.update(&1, |_| unreachable!()));
        6
    });
    assert!(!loaded.is_held());
    drop(loaded);
    assert!(reader.get(&1).is_none() && reader.get_with(&1, || 7).is_held());
    assert_eq!(cache.stats().outdated, 2);
}

#[test]
fn of_keys_of_one_hash_one_is_held() {
    let cache = Cache::<u64, u64>::builder().hasher(BuildHasherDefault::<Same>::default()).open().unwrap();
    let mut reader = cache.reader().unwrap();
    assert!(cache.insert(1, 10));
    assert!(reader.get(&2).is_none());
    assert!(!reader.get_with(&2, || 20).is_held());
    assert_eq!(reader.get(&1).as_deref(), Some(&10));
    let mut other = cache.reader().unwrap();
    assert!(cache.invalidate(&1));
    let loaded = reader.get_with(&1, || {
        assert!(!other.get_with(&2, || 20).is_held());
        10
    });
    assert!(loaded.is_held());
    drop(loaded);
    assert_eq!((cache.stats().refused, cache.stats().outdated), (2, 0));
    // What is put takes the other key's place, and what is invalidated takes it too.
    assert!(cache.insert(2, 20) && reader.get(&1).is_none());
    assert_eq!(reader.get(&2).as_deref(), Some(&20));
    assert!(!cache.invalidate(&1) && cache.is_empty());
}

#[test]
fn an_entry_expires_so_long_after_it_was_put() {
    let time = Duration::from_millis(40);
    let cache = Cache::<u64, u64>::builder().time_to_live(time).open().unwrap();
    let mut reader = cache.reader().unwrap();
    cache.insert(1, 1);
    thread::sleep(time + time / 4);
    assert!(reader.get(&1).is_none());
    assert_eq!(*reader.get_with(&1, || 2), 2);
    assert_eq!((cache.stats().evictions, cache.len()), (1, 1));
}

#[test]
fn an_entry_expires_so_long_after_it_was_last_found() {
    let time = Duration::from_millis(200);
    let cache = Cache::<u64, u64>::builder().time_to_idle(time).time_to_live(LONG).open().unwrap();
    let mut reader = cache.reader().unwrap();
    cache.insert(1, 1);
    for _ in 0..6 {
        let since = Instant::now();
        thread::sleep(time / 4);
        let is_found = reader.get(&1).is_some();
        // On a machine that is busy a sleep may take long.
        assert!(is_found || since.elapsed() > time / 2);
        if !is_found {
            cache.insert(1, 1);
        }
    }
    thread::sleep(time + time / 4);
    assert!(reader.get(&1).is_none());
}

#[test]
fn it_holds_no_more_than_its_capacity() {
    let cache = cache(50);
    let mut reader = cache.reader().unwrap();
    for key in 0..500 {
        assert_eq!(*reader.get_with(&key, || key), key);
        assert!(cache.len() <= 50);
    }
    assert!(cache.len() >= 40 && cache.stats().evictions as usize == 500 - cache.len());
    cache.invalidate_all();
    assert!(cache.is_empty());
}

#[test]
fn its_parts_hold_its_capacity_together() {
    let dropped = AtomicUsize::new(0);
    let cache = cache(1_003);
    let mut reader = cache.reader().unwrap();
    for key in 0..1_000 {
        assert!(reader.get_with(&key, || Counted(&dropped)).is_held());
    }
    assert!(cache.len() > 850, "{} of 1000 keys are held", cache.len());
    for key in 1_000..20_000 {
        drop(reader.get_with(&key, || Counted(&dropped)));
    }
    assert_eq!((cache.len(), cache.stats().loads, cache.stats().misses), (1_003, 20_000, 20_000));
    cache.invalidate_all();
    assert!(cache.is_empty() && (0..20_000).all(|key| reader.get(&key).is_none()));
    drop((reader, cache));
    assert_eq!(dropped.into_inner(), 20_000);
}

#[test]
fn it_has_four_parts_for_each_thread_that_can_run() {
    let processors = thread::available_parallelism().unwrap().get();
    let parts = |threads| Cache::<u64, u64>::builder().capacity(10_000).threads(threads).parts();
    assert_eq!([parts(1), parts(2), parts(3)], [1, 4 * processors.min(2), 4 * processors.min(3)]);
    // Not so many that its readers take more than 3 MB.
    assert_eq!([parts(16), parts(63)], [(4 * processors).min(30), (4 * processors).min(8)]);
    let weighed = Cache::<u64, u64>::builder().capacity(10_000).threads(6).max_weight(10_000);
    assert_eq!(weighed.parts(), 6);
}

#[test]
fn what_is_found_again_and_again_stays() {
    let cache = cache(50);
    let mut reader = cache.reader().unwrap();
    cache.insert(7, 7);
    let mut lost = 0;
    for key in 1000..3000 {
        lost += u32::from(reader.get(&7).is_none());
        cache.insert(7, 7);
        assert!(reader.get(&7).is_some());
        cache.insert(key, key);
    }
    assert!(lost < 20, "it was lost {lost} times");
}

#[test]
fn readers_come_back_by_themselves() {
    let cache = Cache::<u64, u64>::builder().threads(2).open().unwrap();
    for _ in 0..3 {
        let readers = [cache.reader().unwrap(), cache.reader().unwrap()];
        assert!(cache.reader().is_none());
        drop(readers);
    }
}

#[test]
fn sizes_out_of_their_limits_are_refused() {
    let builder = Cache::<u64, u64>::builder;
    let [no_entries, many_entries] = [0, 2_600_001].map(|capacity| builder().capacity(capacity));
    let [no_threads, many_threads] = [0, 65_534].map(|threads| builder().threads(threads));
    for builder in [no_entries, many_entries, no_threads, many_threads] {
        assert_eq!(builder.open().err(), Some(Fault::BadSize));
    }
}

/// Counts its drop.
struct Counted<'a>(&'a AtomicUsize);

impl Drop for Counted<'_> {
    fn drop(&mut self) {
        self.0.fetch_add(1, SeqCst);
    }
}

/// Counts the drops, of which that of a number panics.
struct Fragile<'a>(u64, &'a AtomicUsize);

impl Drop for Fragile<'_> {
    fn drop(&mut self) {
        self.1.fetch_add(1, SeqCst);
        if self.0 % 3 == 0 {
            panicking()
        }
    }
}

#[test]
fn a_drop_that_panics_leaves_nothing_undropped() {
    let drops = AtomicUsize::new(0);
    let cache = Cache::<u64, Fragile>::builder().open().unwrap();
    for key in 0..20 {
        cache.insert(key, Fragile(key, &drops));
    }
    assert!(caught(|| cache.invalidate(&3)).is_none());
    assert_eq!(drops.load(SeqCst), 1);
    assert!(caught(|| drop(cache)).is_none());
    assert_eq!(drops.into_inner(), 20);
}

#[test]
fn a_drop_that_panics_within_a_load_leaves_nobody_waiting() {
    let drops = AtomicUsize::new(0);
    let cache = Cache::<u64, Fragile>::builder().capacity(1).open().unwrap();
    let (mut reader, mut other) = (cache.reader().unwrap(), cache.reader().unwrap());
    drop(reader.get_with(&3, || Fragile(3, &drops)));
    thread::scope(|scope| {
        let (other, drops) = (&mut other, &drops);
        let load = move || {
            scope.spawn(move || assert!(other.get_with_timeout(&5, LONG / 600, || unreachable!()).is_some()));
            thread::sleep(Duration::from_millis(20));
            Fragile(5, drops)
        };
        assert!(caught(|| drop(reader.get_with(&5, load))).is_none());
    });
    assert_eq!(drops.load(SeqCst), 1);
    assert!(other.get_with_timeout(&7, LONG, || Fragile(7, &drops)).is_some());
}

const KEYS: usize = 400;

/// What stands behind the cache: a version for each key.
struct Base {
    versions: Vec<AtomicU64>,
    /// The version whose invalidation has returned.
    floors: Vec<AtomicU64>,
    /// How many changes have begun, and how many calls of the cache that outdate loads have returned.
    begun: Vec<AtomicU64>,
    ended: Vec<AtomicU64>,
    /// The loads that are under way, by how many changes had ended before the get.
    loading: Vec<Mutex<Vec<u64>>>,
    made: AtomicUsize,
    dropped: AtomicUsize,
}

/// A version of a key, which counts its drop.
struct Version<'a> {
    key: u64,
    version: u64,
    bytes: Vec<u8>,
    base: &'a Base,
}

impl Drop for Version<'_> {
    fn drop(&mut self) {
        self.base.dropped.fetch_add(1, SeqCst);
        self.bytes.fill(0);
    }
}

/// A key's load, of which there is one at a time, but those that a change has outdated.
struct Alone<'a> {
    loading: &'a Mutex<Vec<u64>>,
    ended: u64,
}

impl<'a> Alone<'a> {
    fn begin(base: &'a Base, key: u64, ended: u64) -> Alone<'a> {
        let loading = &base.loading[key as usize];
        let mut others = loading.lock().unwrap();
        let begun = base.begun[key as usize].load(SeqCst);
        // Since both gets began nothing has outdated a load.
        let overlap = ended == begun && others.contains(&begun);
        assert!(!overlap, "two loads of a key overlap");
        others.push(ended);
        Alone { loading, ended }
    }
}

impl Drop for Alone<'_> {
    fn drop(&mut self) {
        let mut all = self.loading.lock().unwrap();
        let place = all.iter().position(|ended| *ended == self.ended).expect("it is among them");
        all.swap_remove(place);
    }
}

impl Base {
    fn new() -> Base {
        let zeros = || (0..KEYS).map(|_| AtomicU64::new(0)).collect();
        let loading = (0..KEYS).map(|_| Mutex::default()).collect();
        let [made, dropped] = [0, 0].map(AtomicUsize::new);
        Base { versions: zeros(), floors: zeros(), begun: zeros(), ended: zeros(), loading, made, dropped }
    }

    fn version(&self, key: u64, version: u64) -> Version<'_> {
        self.made.fetch_add(1, SeqCst);
        Version { key, version, bytes: vec![key as u8; 40], base: self }
    }

    fn load(&self, key: u64, dice: u64, ended: u64) -> Result<Version<'_>, ()> {
        let _alone = Alone::begin(self, key, ended);
        let version = self.versions[key as usize].load(SeqCst);
        match dice % 32 {
            0 => return Err(()),
            1 => panicking(),
            2..=4 => thread::sleep(Duration::from_micros(200)),
            5..=12 => thread::yield_now(),
            _ => {}
        }
        Ok(self.version(key, version))
    }

    /// Changes a key, and takes it from the cache.
    fn change<S: BuildHasher>(&self, key: u64, cache: &Cache<u64, Version<'_>, S>) {
        let version = self.versions[key as usize].fetch_add(1, SeqCst) + 1;
        self.outdates([key], || cache.invalidate(&key));
        self.floors[key as usize].fetch_max(version, SeqCst);
    }

    /// Makes a call that outdates the loads of these keys.
    fn outdates<R>(&self, keys: impl IntoIterator<Item = u64> + Clone, call: impl FnOnce() -> R) -> R {
        let count = |counts: &[AtomicU64]| {
            keys.clone().into_iter().for_each(|key| _ = counts[key as usize].fetch_add(1, SeqCst))
        };
        count(&self.begun);
        let gave = call();
        count(&self.ended);
        gave
    }
}

/// A number from 0 on, each half as often as the one that is half as large.
fn zipf(dice: u64) -> u64 {
    let even = (dice >> 11) as f64 / (1u64 << 53) as f64;
    (KEYS as f64).powf(even) as u64 - 1
}

fn one_thread<'a, S: BuildHasher>(base: &'a Base, cache: &Cache<u64, Version<'a>, S>, mut dice: u64) {
    let mut reader = cache.reader().unwrap();
    for round in 0..2000 {
        let key = zipf(roll(&mut dice));
        let (choice, luck) = (roll(&mut dice), roll(&mut dice));
        let floor = base.floors[key as usize].load(SeqCst);
        let ended = base.ended[key as usize].load(SeqCst);
        let load = || base.load(key, luck, ended);
        let is_right = |found: &Version<'_>| {
            assert_eq!((found.key, &found.bytes[..]), (key, &vec![key as u8; 40][..]));
            assert!(found.version >= floor, "version {} of key {key} is older than {floor}", found.version);
        };
        match choice % 16 {
            0 => base.change(key, cache),
            1..=4 => {
                reader.get(&key).as_deref().into_iter().for_each(is_right);
            }
            5..=6 => {
                let limit = Duration::from_micros(luck % 300);
                let get =
                    || reader.try_get_with_timeout(&key, limit, load).into_iter().for_each(|found| is_right(&found));
                caught(get);
            }
            7 => {
                let change = |old: &Version<'_>| {
                    is_right(old);
                    base.version(key, old.version)
                };
                base.outdates([key], || reader.update(&key, change));
            }
            8 if round % 400 == 0 => base.outdates(0..KEYS as u64, || cache.invalidate_all()),
            _ => {
                let get = || reader.try_get_with(&key, load).into_iter().for_each(|found| is_right(&found));
                caught(get);
            }
        }
    }
}

#[test]
fn eight_threads_see_no_old_value_and_load_each_key_alone() {
    let base = Base::new();
    // The second has two parts.
    for (capacity, to_live, to_idle) in
        [(60, LONG, LONG), (300, LONG, LONG), (60, Duration::from_millis(2), Duration::from_millis(1))]
    {
        let builder = Cache::<u64, Version>::builder().capacity(capacity).threads(8);
        let cache = builder.time_to_live(to_live).time_to_idle(to_idle).open().unwrap();
        thread::scope(|scope| {
            for seed in 1..=8u64 {
                let (base, cache) = (&base, &cache);
                scope.spawn(move || one_thread(base, cache, 0x9e37_79b9_7f4a_7c15 ^ seed << 40));
            }
        });
        let stats = cache.stats();
        assert!(stats.hits > 0 && stats.loads > 0 && stats.failures > 0 && stats.evictions > 0, "{stats:?}");
        assert!(cache.len() <= capacity);
    }
    assert_eq!(base.made.into_inner(), base.dropped.into_inner());
}
