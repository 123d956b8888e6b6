//! What stands behind a cache whose threads are stepped, and what each of their calls must keep to.
use super::chance::{caught, panicking};
use super::schedule::Thing;
use super::steps::{every_order, make, new_thing, Act, Op, Scene};
use crate::*;
use std::collections::HashSet;
use std::future::Future;
use std::hash::{BuildHasherDefault, DefaultHasher};
use std::pin::{pin, Pin};
use std::sync::atomic::{AtomicU64, Ordering::SeqCst};
use std::sync::{Arc, Mutex, MutexGuard, PoisonError};
use std::task::{Context, Poll, Wake, Waker};
use std::time::Duration;

const KEYS: usize = 2;
pub(super) const LONG: Duration = Duration::from_secs(3600);

/// A word of which each use is a step.
struct Word {
    thing: Thing,
    value: AtomicU64,
}

impl Word {
    fn new() -> Word {
        Word { thing: new_thing(), value: AtomicU64::new(0) }
    }

    fn read(&self) -> u64 {
        make(Op::Read(self.thing));
        self.value.load(SeqCst)
    }

    fn add_one(&self) {
        make(Op::Write(self.thing));
        self.value.fetch_add(1, SeqCst);
    }

    fn take_one(&self) {
        make(Op::Write(self.thing));
        self.value.fetch_sub(1, SeqCst);
    }
}

fn locked<T>(lock: &Mutex<T>) -> MutexGuard<'_, T> {
    lock.lock().unwrap_or_else(PoisonError::into_inner)
}

/// What the base has of a key.
struct Record {
    /// How many changes have begun, by which its values are told apart, and how many have ended.
    begun: Word,
    ended: Word,
    /// How many changes are under way in the cache, of which each outdates loads from its begin on.
    under_way: Word,
    loading: Thing,
    /// Of each load that is under way how many changes had ended before its get.
    loads: Mutex<Vec<u64>>,
    /// The numbers of all loads that have failed.
    failures: Mutex<Vec<u64>>,
}

impl Record {
    fn new() -> Record {
        let (begun, ended, under_way, loading) = (Word::new(), Word::new(), Word::new(), new_thing());
        Record { begun, ended, under_way, loading, loads: Mutex::default(), failures: Mutex::default() }
    }
}

/// The numbers of all values that there are.
#[derive(Default)]
struct Alive {
    made: AtomicU64,
    numbers: Mutex<HashSet<u64>>,
    /// Why each value left that a listener was told of.
    causes: Mutex<Vec<RemovalCause>>,
}

/// A version of a key.
pub(super) struct Value {
    key: u64,
    version: u64,
    number: u64,
    /// That of the one which the base gave, of which this is a clone.
    first: u64,
    alive: Arc<Alive>,
}

impl Value {
    fn new(alive: &Arc<Alive>, key: u64, version: u64) -> Value {
        let number = alive.made.fetch_add(1, SeqCst);
        locked(&alive.numbers).insert(number);
        Value { key, version, number, first: number, alive: alive.clone() }
    }

    /// Of the next version.
    pub fn next(&self) -> Value {
        Value::new(&self.alive, self.key, self.version + 1)
    }

    /// Tells why it left.
    pub fn left(&self, cause: RemovalCause) {
        locked(&self.alive.causes).push(cause);
    }

    /// It is there, is of the key, and no older than that.
    fn is_right(&self, key: u64, floor: u64) {
        assert!(locked(&self.alive.numbers).contains(&self.number), "a value of key {key} is used after its drop");
        assert_eq!(self.key, key, "it is another key's");
        assert!(self.version >= floor, "version {} of key {key} is older than {floor}", self.version);
    }
}

impl Clone for Value {
    fn clone(&self) -> Value {
        let mut clone = Value::new(&self.alive, self.key, self.version);
        clone.first = self.first;
        clone
    }
}

impl Drop for Value {
    fn drop(&mut self) {
        assert!(locked(&self.alive.numbers).remove(&self.number), "a value is dropped twice");
    }
}

type Hashes = BuildHasherDefault<DefaultHasher>;
pub(super) type Values = Cache<u64, Value, Hashes>;

/// How a load comes out.
#[derive(Clone, Copy, PartialEq, Eq)]
pub(super) enum Load {
    Gives,
    Fails,
    Panics,
}

pub(super) struct World {
    pub cache: Values,
    /// Flags of the scene's own.
    pub flags: [Thing; 2],
    records: [Record; KEYS],
    alive: Arc<Alive>,
}

pub(super) type Builder = CacheBuilder<u64, Value, Hashes>;

impl World {
    fn new(setting: fn(Builder) -> Builder) -> World {
        let builder = Cache::builder().capacity(50).threads(8).hasher(BuildHasherDefault::default());
        World {
            cache: setting(builder).open().unwrap(),
            flags: [(); 2].map(|()| new_thing()),
            records: [(); KEYS].map(|()| Record::new()),
            alive: Arc::default(),
        }
    }

    fn of(&self, key: u64) -> &Record {
        &self.records[key as usize]
    }

    /// What the base has of a key.
    pub fn newest(&self, key: u64) -> Value {
        Value::new(&self.alive, key, self.of(key).begun.read())
    }

    /// A key's load by a get before which so many changes had ended. No other is under way but such as a change between
    /// may have outdated.
    fn load(&self, key: u64, ended: u64, load: Load) -> Result<Value, u64> {
        let record = self.of(key);
        let is_at_rest = record.under_way.read() == 0;
        let value = self.newest(key);
        let is_of_now = is_at_rest && value.version == ended;
        let overlaps = is_of_now && locked(&record.loads).contains(&ended);
        assert!(!overlaps, "two loads of key {key} overlap");
        locked(&record.loads).push(ended);
        make(Op::Write(record.loading));
        let mut loads = locked(&record.loads);
        let place = loads.iter().position(|other| *other == ended).expect("it is among them");
        loads.swap_remove(place);
        drop(loads);
        match load {
            Load::Gives => Ok(value),
            Load::Panics => panicking(),
            Load::Fails => {
                locked(&record.failures).push(value.number);
                Err(value.number)
            }
        }
    }

    /// Gets by the thread's own reader.
    pub fn get(&self, key: u64, load: Load) {
        let ended = self.of(key).ended.read();
        let got = caught(|| self.cache.try_get_with(&key, || self.load(key, ended, load)));
        self.has_got(key, ended, load, got);
    }

    /// The same by a reader in hand, and no longer than that: whether it has waited so long.
    pub fn get_by(&self, reader: &mut Reader, key: u64, limit: Option<Duration>, load: Load) -> bool {
        let ended = self.of(key).ended.read();
        let got = caught(|| match limit {
            None => reader.try_get_with(&key, || self.load(key, ended, load)).map_err(LoadError::Failed),
            Some(limit) => reader.try_get_with_timeout(&key, limit, || self.load(key, ended, load)),
        });
        match got {
            None => assert!(load == Load::Panics),
            Some(Ok(found)) => self.sees(&found, key, ended),
            Some(Err(LoadError::Failed(_))) => assert!(load == Load::Fails, "the failure is its own"),
            Some(Err(LoadError::TimedOut)) => return true,
        }
        false
    }

    /// Gets by a task.
    pub async fn get_async(&self, key: u64, load: Load) {
        let ended = self.of(key).ended.read();
        let got = self.cache.try_get_with_async(&key, async { self.load(key, ended, load) }).await;
        self.has_got(key, ended, load, Some(got));
    }

    /// What a get has got whose failures are told to those who wait.
    fn has_got(&self, key: u64, ended: u64, load: Load, got: Option<Result<Value, Arc<u64>>>) {
        match got {
            None => assert!(load == Load::Panics),
            Some(Ok(found)) => self.sees(&found, key, ended),
            Some(Err(why)) => assert!(locked(&self.of(key).failures).contains(&why), "no load of it has failed so"),
        }
    }

    /// Changes a key's base, and then the cache.
    pub fn change(&self, key: u64, change: impl FnOnce(&Values, Value)) {
        self.of(key).begun.add_one();
        change(&self.cache, self.newest(key));
        self.of(key).ended.add_one();
    }

    /// Finds a key's value, which stays as it is while it is borrowed.
    pub fn hold(&self, reader: &mut Reader, key: u64) {
        let ended = self.of(key).ended.read();
        let Some(found) = reader.get(&key) else { return };
        self.sees(&found, key, ended);
        // Others go on meanwhile.
        self.of(key).ended.read();
        self.sees(&found, key, ended);
    }

    /// Where it has a key's request, it fills it, or fails it.
    pub fn request(&self, key: u64, load: Load) {
        let ended = self.of(key).ended.read();
        match self.cache.get_or_request(&key) {
            Sought::Held(found) => self.sees(&found, key, ended),
            Sought::Aged(found, request) => {
                self.sees(&found, key, ended);
                self.answer(request, ended, load);
            }
            Sought::UnderWay(_) => {}
            Sought::Missing(request) => self.answer(request, ended, load),
        }
    }

    fn answer(&self, request: Request<u64, Value, Hashes>, ended: u64, load: Load) {
        match self.load(*request.key(), ended, load) {
            Ok(value) => _ = request.fill(value),
            Err(_) => request.fail("the base is away"),
        }
    }

    /// What was found is there, is of the key, no older than that, and of no change that hasn't begun.
    fn sees(&self, found: &Value, key: u64, floor: u64) {
        found.is_right(key, floor);
        let begun = self.of(key).begun.value.load(SeqCst);
        assert!(found.version <= begun, "version {} of key {key} is newer than {begun}", found.version);
    }

    /// Which of the base's values a get of a key has got.
    pub fn origin(&self, key: u64) -> u64 {
        let ended = self.of(key).ended.read();
        let found = self.cache.try_get_with(&key, || self.load(key, ended, Load::Gives)).expect("it gives");
        self.sees(&found, key, ended);
        found.first
    }

    /// Changes a key's value in the base, and by a change that is under way meanwhile in the cache.
    pub fn commit(&self, key: u64) {
        let record = self.of(key);
        record.under_way.add_one();
        let change = self.cache.change(&key);
        record.begun.add_one();
        change.commit_with(Value::next);
        record.ended.add_one();
        record.under_way.take_one();
    }

    /// Why each value left that a listener was told of.
    pub fn causes(&self) -> Vec<RemovalCause> {
        locked(&self.alive.causes).clone()
    }

    /// Nobody uses the cache any more: nothing is under way, and what it holds is there and not older than the last
    /// change.
    fn is_whole(&self) {
        let mut reader = self.cache.reader().expect("there are enough");
        for key in 0..KEYS as u64 {
            let floor = self.of(key).ended.read();
            match reader.get_or_request(&key) {
                Sought::Held(found) | Sought::Aged(found, _) => self.sees(&found, key, floor),
                Sought::Missing(request) => drop(request),
                Sought::UnderWay(_) => panic!("the load of key {key} has no end"),
            }
        }
        drop(reader);
        self.cache.invalidate_all();
        self.cache.run_pending_tasks();
        assert_eq!((self.cache.len(), locked(&self.alive.numbers).len()), (0, 0));
    }
}

pub(super) type Reader = CacheReader<u64, Value, Hashes>;

/// A task's flag, which its wakes set.
struct Flag(Thing);

impl Wake for Flag {
    fn wake(self: Arc<Self>) {
        make(Op::SetFlag(self.0));
    }
}

/// A waker, and what it sets.
fn waker() -> (Waker, Thing) {
    let flag = new_thing();
    (Waker::from(Arc::new(Flag(flag))), flag)
}

/// Polls a task by the thread until it comes to something.
pub(super) fn block_on<T>(task: impl Future<Output = T>) -> T {
    block_on_after(pin!(task), waker())
}

/// The same, first by another waker that nobody listens to later.
pub(super) fn block_on_another<T>(task: impl Future<Output = T>) -> T {
    let mut task = pin!(task);
    match poll(task.as_mut(), &waker().0) {
        Poll::Ready(gave) => gave,
        Poll::Pending => block_on_after(task, waker()),
    }
}

fn block_on_after<T>(mut task: Pin<&mut impl Future<Output = T>>, (waker, flag): (Waker, Thing)) -> T {
    loop {
        match poll(task.as_mut(), &waker) {
            Poll::Ready(gave) => return gave,
            Poll::Pending => make(Op::Await(flag)),
        }
    }
}

fn poll<T>(task: Pin<&mut impl Future<Output = T>>, waker: &Waker) -> Poll<T> {
    task.poll(&mut Context::from_waker(waker))
}

/// Polls it once, and cancels it.
pub(super) fn cancelled<T>(task: impl Future<Output = T>) {
    _ = poll(pin!(task), &waker().0);
}

/// Waits for nothing, as a load does that is cancelled.
pub(super) async fn never<T>() -> T {
    std::future::pending().await
}

/// What a search begins with: what a cache is opened with, and what is done before the threads begin.
#[derive(Clone, Copy)]
pub(super) struct Setting {
    pub builder: fn(Builder) -> Builder,
    pub first: fn(&World),
}

/// What three threads do, in every order of their steps, in which sleepers wake up so often by chance: how many orders
/// there are.
pub(super) fn search(chances: u32, acts: [fn(&World); 3], end: fn(&World)) -> u64 {
    search_in(Setting { builder: |builder| builder, first: |_| {} }, chances, acts, end)
}

/// The same in another setting.
pub(super) fn search_in(setting: Setting, chances: u32, acts: [fn(&World); 3], end: fn(&World)) -> u64 {
    every_order(chances, || {
        let world = Arc::new(World::new(setting.builder));
        (setting.first)(&world);
        let act = |act: fn(&World)| {
            let world = world.clone();
            Box::new(move || act(&world)) as Act
        };
        let acts = acts.map(act);
        let end = move || {
            end(&world);
            world.is_whole();
        };
        Scene { acts, end: Box::new(end) }
    })
}
