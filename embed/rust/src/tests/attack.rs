//! Several threads make any calls of a cache, in which whatever its user gave it may panic at any of its uses. No value is
//! older than a write that has returned, no two loads of a key overlap, each value is dropped once, and nothing is lost.
use super::cache::{caught, panicking, roll};
use crate::*;
use std::cell::Cell;
use std::collections::HashSet;
use std::hash::{BuildHasher, Hash, Hasher};
use std::sync::atomic::{AtomicBool, AtomicU64, AtomicUsize, Ordering::SeqCst};
use std::sync::{Arc, Mutex, MutexGuard, PoisonError};
use std::thread;
use std::time::Duration;

const KEYS: u64 = 24;
const THREADS: u64 = 4;
const TURNS: u64 = 2000;

thread_local! {
    /// Which use of what the cache was given panics next in this thread, counted from now on: 0 for none.
    static FUSE: Cell<u64> = const { Cell::new(0) };
}

/// Each use of what the cache was given: a hash, a comparison, a clone, a drop of a value, a load.
fn burn() {
    let left = FUSE.get();
    FUSE.set(left.saturating_sub(1));
    if left == 1 && !thread::panicking() {
        panicking()
    }
}

/// How many keys there are.
static ALIVE: AtomicUsize = AtomicUsize::new(0);

struct Key(u64);

impl Key {
    fn new(number: u64) -> Key {
        ALIVE.fetch_add(1, SeqCst);
        Key(number)
    }
}

impl Drop for Key {
    fn drop(&mut self) {
        ALIVE.fetch_sub(1, SeqCst);
    }
}

impl Hash for Key {
    fn hash<H: Hasher>(&self, state: &mut H) {
        burn();
        state.write_u64(self.0);
    }
}

impl PartialEq for Key {
    fn eq(&self, other: &Key) -> bool {
        burn();
        self.0 == other.0
    }
}

impl Eq for Key {}

impl Clone for Key {
    fn clone(&self) -> Key {
        burn();
        Key::new(self.0)
    }
}

/// Gives so many keys in a row one hash.
#[derive(Clone, Copy)]
struct Sharing(u64);

impl Hasher for Sharing {
    fn write(&mut self, _: &[u8]) {
        unreachable!("a key is a number")
    }

    fn write_u64(&mut self, key: u64) {
        self.0 = key / self.0;
    }

    fn finish(&self) -> u64 {
        self.0 + 1
    }
}

impl BuildHasher for Sharing {
    type Hasher = Sharing;

    fn build_hasher(&self) -> Sharing {
        *self
    }
}

/// What the base has of a key.
#[derive(Default)]
struct Record {
    version: AtomicU64,
    /// The version whose write has returned.
    floor: AtomicU64,
    /// Of each load that is under way how many changes had ended before it was asked for.
    loads: Mutex<Vec<u64>>,
    /// A key has one write at a time.
    write: Mutex<()>,
}

/// What stands behind the cache, and the numbers of all values that there are.
struct Base {
    records: Vec<Record>,
    /// Whether keys share hashes: then each who meets another key loads.
    is_shared: bool,
    alive: Mutex<HashSet<u64>>,
    made: AtomicU64,
    is_twice_dropped: AtomicBool,
    /// How many calls that invalidate all have begun, and have ended.
    clearings: [AtomicU64; 2],
}

fn locked<T>(lock: &Mutex<T>) -> MutexGuard<'_, T> {
    lock.lock().unwrap_or_else(PoisonError::into_inner)
}

impl Base {
    fn new(is_shared: bool) -> Arc<Base> {
        let records = (0..KEYS).map(|_| Record::default()).collect();
        let (alive, made, clearings) = (Mutex::default(), AtomicU64::new(0), Default::default());
        Arc::new(Base { records, is_shared, alive, made, is_twice_dropped: AtomicBool::new(false), clearings })
    }

    fn of(&self, key: &Key) -> &Record {
        &self.records[key.0 as usize]
    }

    fn floor(&self, key: &Key) -> u64 {
        self.of(key).floor.load(SeqCst)
    }

    /// How many changes that outdate the key's loads have begun, and how many have ended.
    fn begun(&self, key: &Key) -> u64 {
        self.of(key).version.load(SeqCst) + self.clearings[0].load(SeqCst)
    }

    fn ended(&self, key: &Key) -> u64 {
        self.floor(key) + self.clearings[1].load(SeqCst)
    }

    fn count(&self) -> usize {
        locked(&self.alive).len()
    }
}

/// A version of a key.
struct Value {
    key: u64,
    version: u64,
    number: u64,
    base: Arc<Base>,
}

impl Value {
    fn new(base: &Arc<Base>, key: u64, version: u64) -> Value {
        let number = base.made.fetch_add(1, SeqCst);
        locked(&base.alive).insert(number);
        Value { key, version, number, base: base.clone() }
    }

    /// It is there, is of the key, and no older than that.
    fn is_right(&self, key: &Key, floor: u64) {
        let is_alive = locked(&self.base.alive).contains(&self.number);
        assert!(is_alive, "a value of key {} is used after its drop", key.0);
        assert_eq!(self.key, key.0);
        assert!(self.version >= floor, "version {} of key {} is older than {floor}", self.version, key.0);
    }
}

impl Clone for Value {
    fn clone(&self) -> Value {
        burn();
        Value::new(&self.base, self.key, self.version)
    }
}

impl Drop for Value {
    fn drop(&mut self) {
        let was_alive = locked(&self.base.alive).remove(&self.number);
        self.base.is_twice_dropped.fetch_or(!was_alive, SeqCst);
        burn();
    }
}

/// A key's load, until it is dropped. Another may overlap it once a change has outdated it.
struct Load<'a> {
    all: &'a Mutex<Vec<u64>>,
    ended: u64,
}

impl<'a> Load<'a> {
    /// A load of the key by a get before which so many changes had ended.
    fn of(base: &'a Base, key: &Key, ended: u64) -> Load<'a> {
        let (all, begun) = (&base.of(key).loads, base.begun(key));
        let mut loads = locked(all);
        let overlaps = ended == begun && loads.contains(&begun);
        assert!(!overlaps || base.is_shared, "two loads of key {} overlap", key.0);
        loads.push(ended);
        Load { all, ended }
    }
}

impl Drop for Load<'_> {
    fn drop(&mut self) {
        let mut loads = locked(self.all);
        let place = loads.iter().position(|ended| *ended == self.ended).expect("it is among them");
        loads.swap_remove(place);
    }
}

/// A call that invalidates all, until it is dropped.
struct Clearing<'a>(&'a Base);

impl Clearing<'_> {
    fn of(base: &Base) -> Clearing<'_> {
        base.clearings[0].fetch_add(1, SeqCst);
        Clearing(base)
    }
}

impl Drop for Clearing<'_> {
    fn drop(&mut self) {
        self.0.clearings[1].fetch_add(1, SeqCst);
    }
}

type Values = Cache<Key, Value, Sharing>;
type Reader = CacheReader<Key, Value, Sharing>;

/// One thread's part in it.
struct Attacker {
    cache: Values,
    base: Arc<Base>,
    dice: Cell<u64>,
}

impl Attacker {
    /// How many of its calls panicked.
    fn run(&self) -> u64 {
        let panics = (0..TURNS).filter(|_| {
            FUSE.set(self.draw(2) * self.draw(20));
            caught(|| self.turn()).is_none()
        });
        let count = panics.count() as u64;
        FUSE.set(0);
        count
    }

    fn draw(&self, below: u64) -> u64 {
        let mut dice = self.dice.get();
        let drawn = (roll(&mut dice) >> 32) % below;
        self.dice.set(dice);
        drawn
    }

    fn key(&self) -> Key {
        Key::new(self.draw(KEYS))
    }

    /// A call by a reader, where there is one, or by the cache.
    fn turn(&self) {
        let key = self.key();
        let reader = if self.draw(2) == 0 { self.cache.reader() } else { None };
        match reader {
            Some(mut reader) => self.read(&mut reader, &key),
            None => self.call(&key),
        }
    }

    fn call(&self, key: &Key) {
        let (floor, ended) = (self.base.floor(key), self.base.ended(key));
        match self.draw(8) {
            0 => self.write(key),
            1 => self.cache.get(key).iter().for_each(|found| found.is_right(key, floor)),
            2..=4 => self.cache.get_with(key, || self.load(key, ended)).is_right(key, floor),
            5 | 6 => {
                let found = self.cache.try_get_with(key, || self.try_load(key, ended));
                found.iter().for_each(|found| found.is_right(key, floor));
            }
            _ => self.get_many(),
        }
    }

    fn read(&self, reader: &mut Reader, key: &Key) {
        let (floor, ended) = (self.base.floor(key), self.base.ended(key));
        match self.draw(4) {
            0 => self.hold(reader, key),
            1 => self.request(reader, key),
            2 => reader.get_with(key, || self.load(key, ended)).is_right(key, floor),
            _ => {
                let found = reader.try_get_with(key, || self.try_load(key, ended));
                found.iter().for_each(|found| found.is_right(key, floor));
            }
        }
    }

    /// Gets several, some of which it may name twice, and has those that are missing loaded by one call.
    fn get_many(&self) {
        let keys = [(); 4].map(|()| self.key());
        let floors = keys.each_ref().map(|key| self.base.floor(key));
        let ended = keys.each_ref().map(|key| (key.0, self.base.ended(key)));
        let load = |wanted: &[&Key]| {
            let ended = |key: &Key| ended.iter().find(|of| of.0 == key.0).expect("it was asked for").1;
            let _loads: Vec<_> = wanted.iter().map(|key| Load::of(&self.base, key, ended(key))).collect();
            wanted.iter().map(|key| self.newest(key)).collect()
        };
        let found = self.cache.get_many_with(&keys.each_ref(), load);
        assert_eq!(found.len(), keys.len());
        for ((found, key), floor) in found.iter().zip(&keys).zip(floors) {
            found.is_right(key, floor);
        }
    }

    /// What was found stays as it was while it is borrowed, whatever happens to its key.
    fn hold(&self, reader: &mut Reader, key: &Key) {
        let floor = self.base.floor(key);
        let Some(found) = reader.get(key) else { return };
        found.is_right(key, floor);
        self.write(key);
        thread::yield_now();
        found.is_right(key, floor);
    }

    /// Has a request filled, fail or be dropped, and writes before that.
    fn request(&self, reader: &mut Reader, key: &Key) {
        let (floor, ended) = (self.base.floor(key), self.base.ended(key));
        match reader.get_or_request(key) {
            Sought::Held(found) | Sought::Aged(found, _) => found.is_right(key, floor),
            Sought::UnderWay(_) => {}
            Sought::Missing(request) => {
                let own = Load::of(&self.base, key, ended);
                let value = self.newest(key);
                self.write(&self.key());
                // Another may load once the request has ended.
                drop(own);
                match self.draw(4) {
                    0 => drop(request),
                    1 => request.fail("the base is away"),
                    _ => _ = request.fill(value),
                }
            }
        }
    }

    fn try_load(&self, key: &Key, ended: u64) -> Result<Value, &'static str> {
        match self.draw(8) {
            0 => Err("the base is away"),
            _ => Ok(self.load(key, ended)),
        }
    }

    /// Reads the base, beside which there may be writes.
    fn load(&self, key: &Key, ended: u64) -> Value {
        let _own = Load::of(&self.base, key, ended);
        let value = self.newest(key);
        match self.draw(8) {
            0 => self.write(key),
            1 => self.write(&self.key()),
            2..=4 => thread::yield_now(),
            _ => {}
        }
        burn();
        value
    }

    fn newest(&self, key: &Key) -> Value {
        Value::new(&self.base, key.0, self.base.of(key).version.load(SeqCst))
    }

    /// Changes the base and then the cache. Where that panics nobody knows how far it has come.
    fn write(&self, key: &Key) {
        let record = self.base.of(key);
        let _alone = locked(&record.write);
        let version = record.version.fetch_add(1, SeqCst) + 1;
        match (self.draw(16), self.cache.reader()) {
            (0, _) => {
                let _all = Clearing::of(&self.base);
                self.cache.invalidate_all();
            }
            (1..=5, _) => _ = self.cache.insert(key.clone(), self.newest(key)),
            (6..=8, Some(mut reader)) => _ = reader.update(key, |_| self.newest(key)),
            (9..=11, _) => _ = self.cache.upsert_with(key, |_| self.newest(key)),
            (12 | 13, _) => _ = self.cache.change(key).commit_with(|_| self.newest(key)),
            _ => _ = self.cache.invalidate(key),
        }
        record.floor.fetch_max(version, SeqCst);
    }
}

struct Setting {
    capacity: usize,
    readers: u32,
    /// How many keys have one hash.
    sharing: u64,
    /// For how many microseconds entries live, and stay where nobody finds them: 0 for ever.
    life: u64,
    idle: u64,
    /// And are left then for loads that fail.
    left: u64,
    /// How much values weigh at most together, which burns too: 0 where they don't.
    weight: u64,
}

/// For a table.
const fn setting(capacity: usize, readers: u32, sharing: u64, life: u64, idle: u64) -> Setting {
    Setting { capacity, readers, sharing, life, idle, left: 0, weight: 0 }
}

const SETTINGS: [Setting; 14] = [
    setting(1, 1, 1, 0, 0),
    setting(1, 12, 1, 0, 0),
    setting(8, 4, 1, 0, 0),
    setting(8, 12, 2, 0, 0),
    setting(8, 2, KEYS, 0, 0),
    // Of two parts, and with room for all keys.
    setting(300, 12, 1, 0, 0),
    setting(8, 12, 1, 200, 0),
    setting(8, 4, 2, 0, 200),
    setting(300, 4, 1, 200, 100),
    Setting { left: 500, ..setting(8, 4, 1, 100, 0) },
    Setting { left: u64::MAX, ..setting(300, 12, 2, 0, 50) },
    Setting { weight: 30, ..setting(100, 4, 1, 0, 0) },
    Setting { weight: 20, ..setting(8, 2, 2, 200, 0) },
    Setting { weight: 40, left: 300, ..setting(300, 12, 1, 100, 0) },
];

impl Setting {
    fn open(&self) -> Values {
        let &Setting { capacity, readers, sharing, life, idle, left, weight } = self;
        let mut builder = Cache::builder().capacity(capacity).threads(readers).hasher(Sharing(sharing));
        if left > 0 {
            builder = builder.stale_if_error(Duration::from_micros(left));
        }
        if life > 0 {
            builder = builder.time_to_live(Duration::from_micros(life));
        }
        if idle > 0 {
            builder = builder.time_to_idle(Duration::from_micros(idle));
        }
        if weight > 0 {
            builder = builder.max_weight(weight).weigher(|_, value: &Value| {
                burn();
                (value.number % 8) as u32
            });
        }
        builder.open().unwrap()
    }
}

/// How many calls panicked, of all that several threads made.
fn attack(cache: &Values, base: &Arc<Base>, seed: u64) -> u64 {
    let begin = |thread| {
        let dice = Cell::new(seed << 8 | thread);
        let attacker = Attacker { cache: cache.clone(), base: base.clone(), dice };
        thread::spawn(move || attacker.run())
    };
    let attackers: Vec<_> = (1..=THREADS).map(begin).collect();
    attackers.into_iter().map(|attacker| attacker.join().unwrap()).sum()
}

/// Nobody uses the cache any more: no load is under way, all readers are back, and so is what was found, and it works.
fn is_whole(cache: &Values, base: &Arc<Base>, readers: u32) {
    let mut all: Vec<_> = (0..readers).map(|_| cache.reader().expect("each reader is back")).collect();
    for key in (0..KEYS).map(Key::new) {
        match all[0].get_or_request(&key) {
            Sought::Held(found) | Sought::Aged(found, _) => found.is_right(&key, base.floor(&key)),
            Sought::Missing(request) => drop(request),
            Sought::UnderWay(_) => panic!("the load of key {} has no end", key.0),
        }
        assert!(cache.insert(key.clone(), Value::new(base, key.0, base.floor(&key))));
    }
    drop(all);
    cache.invalidate_all();
    assert_eq!((cache.len(), cache.weighted_size(), base.count()), (0, 0, 0));
}

#[test]
fn whatever_panics_no_value_is_old_or_loaded_twice_or_lost() {
    for (seed, setting) in (1..).zip(&SETTINGS) {
        let (base, cache) = (Base::new(setting.sharing > 1), setting.open());
        let panics = attack(&cache, &base, seed);
        assert!(panics > THREADS * TURNS / 20, "{panics} calls panicked");
        assert!(cache.len() <= setting.capacity);
        assert!(setting.weight == 0 || cache.weighted_size() <= setting.weight);
        is_whole(&cache, &base, setting.readers);
        drop(cache);
        assert!(!base.is_twice_dropped.load(SeqCst));
        assert_eq!((base.count(), ALIVE.load(SeqCst)), (0, 0));
    }
}
