//! The cache under load: rounds, each with threads of its own, until SIGTERM.    soak_cache KEYS SEED
mod model;
mod tasks;

use model::*;
use nr::{Cache, CacheReader, CacheRef, LoadError, RemovalCause, Request, Sought, WaitError};
use std::hash::{BuildHasher, Hasher};
use std::panic::{catch_unwind, resume_unwind, AssertUnwindSafe};
use std::sync::atomic::{AtomicBool, AtomicU64, Ordering::SeqCst};
use std::sync::{mpsc, Mutex};
use std::thread::{Builder, Scope, ScopedJoinHandle};
use std::{env, ffi::c_int, time::Duration};

const KEYS: u32 = 512;
const THREADS: u32 = 8;
/// The place of the thread that loads for others.
const POOL: u32 = THREADS;
const TURNS: u64 = 2000;

/// A version of a key, which the model follows.
struct Value {
    key: u32,
    version: u64,
    number: u32,
    bytes: Box<[u8]>,
    /// Whether the cache held it, as a reader has seen, and whether the listener was told of it since.
    was_held: AtomicBool,
    was_told: AtomicBool,
}

impl Value {
    fn new(key: u32, version: u64) -> Value {
        let (number, bytes) = (model_makes(), vec![key as u8; 64].into());
        Value { key, version, number, bytes, was_held: AtomicBool::new(false), was_told: AtomicBool::new(false) }
    }

    fn look(&self, key: u32, floor: u64) {
        let number = self.number;
        model_reads(number);
        model_answers(key, self.key, self.version, floor);
        let is_torn = self.bytes.iter().any(|byte| *byte != key as u8);
        // Where it was dropped meanwhile it fails by that.
        model_reads(number);
        if is_torn {
            fails(c"torn");
        }
    }
}

/// As a get without a reader in hand has it.
impl Clone for Value {
    fn clone(&self) -> Value {
        self.look(self.key, 0);
        Value::new(self.key, self.version)
    }
}

/// Looks at what a reader borrows.
fn look(found: &CacheRef<'_, u32, Value>, key: u32, floor: u64) {
    found.look(key, floor);
    found.was_held.fetch_or(found.is_held(), SeqCst);
}

impl Drop for Value {
    fn drop(&mut self) {
        if LISTENS.load(SeqCst) && *self.was_held.get_mut() && !*self.was_told.get_mut() {
            fails(c"not told");
        }
        model_drops(self.number);
        self.bytes.fill(!self.key as u8);
    }
}

/// Of that many keys each has one hash.
#[derive(Clone, Copy)]
struct Sharing(u32);

impl Hasher for Sharing {
    fn write(&mut self, _: &[u8]) {}

    fn write_u32(&mut self, key: u32) {
        self.0 = key / self.0 + 1;
    }

    fn finish(&self) -> u64 {
        u64::from(self.0).wrapping_mul(0x9e37_79b9_7f4a_7c15)
    }
}

impl BuildHasher for Sharing {
    type Hasher = Sharing;

    fn build_hasher(&self) -> Sharing {
        *self
    }
}

type Values = Cache<u32, Value, Sharing>;

/// A request, and how many calls that outdate its key's loads had ended before it was asked for; or none, where the key
/// is held: then another may load it too once that makes room.
struct Wanted {
    request: Request<u32, Value, Sharing>,
    ended: Option<u64>,
}

struct Client<'a> {
    cache: &'a Values,
    reader: CacheReader<u32, Value, Sharing>,
    dice: Dice,
    place: u32,
    /// A key has one write at a time.
    writes: &'a [Mutex<()>],
    pool: mpsc::Sender<Wanted>,
}

impl Client<'_> {
    fn run(mut self) {
        model_begins(self.place);
        for turn in 0..TURNS {
            // A load that panics does so in the thread that gets.
            _ = catch_unwind(AssertUnwindSafe(|| self.turn()));
            if turn % 64 == 0 {
                model_sleeps(self.place, 2);
            }
        }
        model_ends(self.place);
    }

    fn turn(&mut self) {
        let key = self.dice.key(KEYS);
        match self.dice.roll(64) {
            0..=5 => self.write(key),
            6..=20 => self.get(key, 0),
            21..=24 => self.request(key),
            25..=26 => self.wait(key),
            27 if self.dice.roll(200) == 0 => {
                let milliseconds = 1000 + self.dice.roll(2000) as u32;
                self.get(key, milliseconds);
            }
            28 if self.dice.roll(500) == 0 => {
                CLEARINGS_BEGUN.fetch_add(1, SeqCst);
                self.cache.invalidate_all();
                CLEARINGS_ENDED.fetch_add(1, SeqCst);
            }
            29..=36 => {
                let limit = Duration::from_micros(self.dice.roll(500));
                self.load(key, Some(limit));
            }
            37..=42 => self.load_by_task(key),
            _ => self.load(key, None),
        }
    }

    fn write(&mut self, key: u32) {
        let _alone = self.writes[key as usize].lock().expect("nobody panics with it");
        let version = model_writes(key);
        let changed = |old: &Value| {
            old.look(key, 0);
            Value::new(key, version)
        };
        let is_put = match self.dice.roll(5) {
            0 => self.reader.update(&key, changed),
            1 => self.cache.upsert_with(&key, |old| old.map_or_else(|| Value::new(key, version), changed)),
            2 => self.cache.change(&key).commit_with(changed),
            3 => self.cache.insert(key, Value::new(key, version)),
            _ => false,
        };
        if !is_put {
            self.cache.invalidate(&key);
        }
        model_has_written(key, version);
    }

    /// Gets what the cache has, and holds it so long.
    fn get(&mut self, key: u32, milliseconds: u32) {
        let floor = model_floor(key);
        let Some(found) = self.reader.get(&key) else { return };
        if milliseconds > 0 {
            model_sleeps(self.place, milliseconds);
            counts(c"holder stopped", 1);
        }
        look(&found, key, floor);
    }

    fn load(&mut self, key: u32, limit: Option<Duration>) {
        let (floor, luck, place) = (model_floor(key), self.dice.roll(64), self.place);
        let ended = ended(key);
        let load = || loaded(key, luck, place, Some(ended));
        let found = match limit {
            Some(limit) => self.reader.try_get_with_timeout(&key, limit, load),
            None => self.reader.try_get_with(&key, load).map_err(LoadError::Failed),
        };
        match found {
            Ok(found) => look(&found, key, floor),
            Err(LoadError::TimedOut) => counts(c"load timed out", 1),
            Err(LoadError::Failed(())) => counts(c"load failed", 1),
        }
    }

    /// Gets by a task, which loads where it has to, and may be cancelled as it does or as it waits.
    fn load_by_task(&mut self, key: u32) {
        let (floor, ended, luck) = (model_floor(key), ended(key), self.dice.roll(64));
        let polls = if self.dice.roll(2) == 0 { u64::MAX } else { 1 + self.dice.roll(3) };
        match tasks::run(self.cache.try_get_with_async(&key, loaded_by_task(key, luck, ended)), polls) {
            Some(Ok(found)) => found.look(key, floor),
            Some(Err(_)) => counts(c"load failed", 1),
            None => counts(c"task cancelled", 1),
        }
    }

    /// Has another thread load what is missing.
    fn request(&mut self, key: u32) {
        let (floor, ended) = (model_floor(key), ended(key));
        match self.reader.get_or_request(&key) {
            Sought::Held(found) => look(&found, key, floor),
            Sought::Aged(found, request) => {
                look(&found, key, floor);
                _ = self.pool.send(Wanted { request, ended: None });
            }
            Sought::Missing(request) => _ = self.pool.send(Wanted { request, ended: Some(ended) }),
            Sought::UnderWay(_) => {}
        }
    }

    fn wait(&mut self, key: u32) {
        let floor = model_floor(key);
        match self.reader.get_waiting(&key, Duration::from_micros(self.dice.roll(1000))) {
            Ok(found) => look(&found, key, floor),
            Err(WaitError::TimedOut) => counts(c"load timed out", 1),
            Err(WaitError::Missing | WaitError::Failed(_)) => {}
        }
    }
}

static CLEARINGS_BEGUN: AtomicU64 = AtomicU64::new(0);
static CLEARINGS_ENDED: AtomicU64 = AtomicU64::new(0);

/// How many calls that outdate a key's loads have ended. It has one write at a time.
fn ended(key: u32) -> u64 {
    model_floor(key) + CLEARINGS_ENDED.load(SeqCst)
}

/// Each key's loads that are under way, by how many such calls had ended before the get.
static LOADS: [Mutex<Vec<u64>>; KEYS as usize] = [const { Mutex::new(Vec::new()) }; KEYS as usize];

/// A key's load, until it is dropped.
struct Load {
    key: u32,
    ended: u64,
}

impl Load {
    fn of(key: u32, ended: u64) -> Load {
        let mut others = LOADS[key as usize].lock().expect("nobody panics with it");
        let begun = model_newest(key) + CLEARINGS_BEGUN.load(SeqCst);
        // Since both gets began nothing has outdated a load.
        let overlap = ended == begun && others.contains(&begun);
        // A key that meets another of its hash is loaded by each who misses it, and a value that is too heavy by each who waited.
        if overlap && !HASHES_ARE_SHARED.load(SeqCst) && !is_too_heavy(key) {
            fails(c"two loads");
        }
        others.push(ended);
        Load { key, ended }
    }
}

impl Drop for Load {
    fn drop(&mut self) {
        let mut all = LOADS[self.key as usize].lock().expect("nobody panics with it");
        let place = all.iter().position(|ended| *ended == self.ended).expect("it is among them");
        all.swap_remove(place);
    }
}

/// What a load gives that begins now, unless it fails or panics. Some take long.
fn loaded(key: u32, luck: u64, place: u32, ended: Option<u64>) -> Result<Value, ()> {
    let _load = ended.map(|ended| Load::of(key, ended));
    let version = model_newest(key);
    match luck {
        0 | 1 => return Err(()),
        2 => {
            counts(c"load panicked", 1);
            resume_unwind(Box::new(()));
        }
        3..=6 => model_sleeps(place, luck as u32 - 2),
        _ => {}
    }
    Ok(Value::new(key, version))
}

/// The same by a task, beside whose load its thread's others go on.
async fn loaded_by_task(key: u32, luck: u64, ended: u64) -> Result<Value, ()> {
    let _load = Load::of(key, ended);
    let version = model_newest(key);
    tasks::yields(luck % 4).await;
    if luck < 4 {
        return Err(());
    }
    Ok(Value::new(key, version))
}

/// The thread that loads for others, until these have ended.
fn pool(wanted: &mpsc::Receiver<Wanted>, mut dice: Dice) {
    model_begins(POOL);
    for Wanted { request, ended } in wanted {
        let (key, luck) = (*request.key(), dice.roll(64));
        match catch_unwind(|| loaded(key, luck, POOL, ended)) {
            Ok(Ok(value)) => _ = request.fill(value),
            Ok(Err(())) => request.fail("the base is away"),
            Err(_) => drop(request),
        }
    }
    model_ends(POOL);
}

/// Makes a thread, or counts that it is refused.
fn spawn<'s>(
    scope: &'s Scope<'s, '_>,
    place: u32,
    work: impl FnOnce() + Send + 's,
) -> Option<ScopedJoinHandle<'s, ()>> {
    model_spawns(place);
    let thread = Builder::new().spawn_scoped(scope, work).ok();
    if thread.is_none() {
        model_ends(place);
    }
    thread
}

fn round(cache: &Values, writes: &[Mutex<()>], dice: &mut Dice) {
    let (sender, requests) = mpsc::channel();
    // Before a thread runs, since each may keep one more for itself.
    let readers: Option<Vec<_>> = (0..THREADS).map(|_| cache.reader()).collect();
    let Some(readers) = readers else { fails(c"slot leaked") };
    std::thread::scope(|scope| {
        let its_dice = Dice(dice.roll(u64::MAX) | 1);
        let mut threads = vec![spawn(scope, POOL, move || pool(&requests, its_dice))];
        for (place, reader) in (0..THREADS).zip(readers) {
            let (dice, pool) = (Dice(dice.roll(u64::MAX) | 1), sender.clone());
            let client = Client { cache, reader, dice, place, writes, pool };
            threads.push(spawn(scope, place, move || client.run()));
        }
        drop(sender);
        model_awaits(0, POOL + 1);
        // What a thread keeps for itself is back once it has ended.
        threads.into_iter().flatten().for_each(|thread| thread.join().expect("it catches what panics"));
    });
    // A write to each part, so that what others took out there is dropped.
    (KEYS..KEYS + 64).for_each(|other| _ = cache.invalidate(&other));
    look_at_weights(cache);
    model_lives(cache.len() as u64);
}

/// What a key's entry weighs: of some keys too much.
fn weight(key: u32) -> u32 {
    match key % 61 {
        7 => 1_000_000,
        _ => 1 + key % 8,
    }
}

/// Whether a key's entry isn't held for what it weighs.
fn is_too_heavy(key: u32) -> bool {
    let most = MOST_WEIGHT.load(SeqCst);
    most > 0 && u64::from(weight(key)) > most
}

/// While nobody else uses it a cache of weighed entries knows what they weigh, but for those that have expired.
fn look_at_weights(cache: &Values) {
    let most = MOST_WEIGHT.load(SeqCst);
    let all = cache.iter().map(|(key, _)| u64::from(weight(key))).sum::<u64>();
    if most > 0 && (all > cache.weighted_size() || cache.weighted_size() > most) {
        fails(c"weighed wrong");
    }
}

/// Is given each value that a cache held and that left.
fn is_told(key: u32, value: Value, _: RemovalCause) {
    value.look(key, 0);
    value.was_told.store(true, SeqCst);
    counts(c"told to a listener", 1);
}

fn open(dice: &mut Dice) -> Values {
    let capacity = [5, 60, 300][dice.roll(3) as usize];
    let sharing = 1 + dice.roll(2) as u32;
    HASHES_ARE_SHARED.store(sharing > 1, SeqCst);
    // Some for calls without one in hand, of which others look under a lock.
    let builder = Cache::builder().capacity(capacity).threads(THREADS + 4).hasher(Sharing(sharing));
    let (is_weighed, listens) = (dice.roll(2) == 0, dice.roll(2) == 0);
    MOST_WEIGHT.store(if is_weighed { 3 * capacity as u64 } else { 0 }, SeqCst);
    LISTENS.store(listens, SeqCst);
    let builder = if listens { builder.eviction_listener(is_told) } else { builder };
    let builder =
        if is_weighed { builder.weigher(|key, _| weight(*key)).max_weight(3 * capacity as u64) } else { builder };
    let builder =
        if dice.roll(2) == 0 { builder.time_to_live(Duration::from_millis(1 + dice.roll(50))) } else { builder };
    let builder =
        if dice.roll(2) == 0 { builder.time_to_idle(Duration::from_millis(1 + dice.roll(50))) } else { builder };
    let builder =
        if dice.roll(2) == 0 { builder.refresh_after(Duration::from_millis(1 + dice.roll(20))) } else { builder };
    let builder =
        if dice.roll(2) == 0 { builder.stale_if_error(Duration::from_millis(1 + dice.roll(100))) } else { builder };
    builder.open().expect("there is memory")
}

static IS_OVER: AtomicBool = AtomicBool::new(false);
static HASHES_ARE_SHARED: AtomicBool = AtomicBool::new(false);
/// Of the cache that there is: how much its entries may weigh, where that is bounded, and whether somebody is told what
/// leaves, as nobody is of what it holds at its end.
static MOST_WEIGHT: AtomicU64 = AtomicU64::new(0);
static LISTENS: AtomicBool = AtomicBool::new(false);

extern "C" {
    fn signal(number: c_int, handler: extern "C" fn(c_int)) -> usize;
}

extern "C" fn end(_: c_int) {
    IS_OVER.store(true, SeqCst);
}

fn main() {
    let words: Vec<String> = env::args().skip(1).collect();
    let [keys, seed] = &words[..] else { panic!("soak_cache KEYS SEED") };
    opens_keys(keys);
    // SAFETY: the handler makes nothing but an atomic store.
    unsafe { signal(15, end) };
    let mut dice = Dice(2 * seed.parse::<u64>().expect("a number") + 1);
    let writes: Vec<_> = (0..KEYS).map(|_| Mutex::new(())).collect();
    // The later caches live longer.
    for caches in 1.. {
        let cache = open(&mut dice);
        for _ in 0..caches {
            if IS_OVER.load(SeqCst) {
                LISTENS.store(false, SeqCst);
                return model_tells_counts();
            }
            round(&cache, &writes, &mut dice);
            counts(c"rounds", 1);
        }
        let stats = cache.stats();
        counts(c"two keys of one hash", stats.clashes);
        counts(c"too heavy", stats.refused - stats.clashes);
        counts(c"late load refused", stats.outdated);
        LISTENS.store(false, SeqCst);
        drop(cache);
        model_lives(0);
    }
}
