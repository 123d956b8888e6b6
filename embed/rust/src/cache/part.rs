//! One of a cache's parts, which has some of the ids, and a map and a lock of its own.
use super::all::Seated;
use super::entry::Entry;
use super::expiry::{Expiry, Lifetime, Moment};
use super::failure::Failure;
use super::flights::{End, Flight};
use super::handful::Handful;
use super::hold::Hold;
use super::leaving::{Listener, RemovalCause};
use super::lock::{Lock, Locked};
use super::stale::Met;
use super::stats::CacheStats;
use super::store::{Beside, Place, Store};
use super::threads::own_id;
use super::under_way::Over;
use super::weights::{Weighed, Weigher};
use crate::drops::FirstPanic;
use crate::ids::{IdReader, Miss};
use std::borrow::Borrow;
use std::panic::{catch_unwind, AssertUnwindSafe};
use std::sync::atomic::{AtomicBool, AtomicU64, Ordering::Relaxed};
use std::sync::Arc;
use std::thread::ThreadId;
use std::time::Instant;

/// Apart from the lines of others.
#[repr(align(128))]
struct Apart<T>(T);

/// What each get reads, and behind a lock what misses and changes write, apart from it.
#[repr(align(128))]
pub(super) struct Part<K, V> {
    pub expiry: Expiry,
    /// How many entries came out that had expired.
    expired: AtomicU64,
    told: Told<K, V>,
    store: Apart<Lock<Store<K, V>>>,
}

// SAFETY: the entries go between threads, and are read by several at a time; the rest is behind a lock or atomic.
unsafe impl<K: Send + Sync, V: Send + Sync> Send for Part<K, V> {}
// SAFETY: as above.
unsafe impl<K: Send + Sync, V: Send + Sync> Sync for Part<K, V> {}

/// What puts a value in the form in which it is kept.
pub(super) type Arrange<V> = Arc<dyn Fn(&mut V) + Send + Sync>;

/// What a cache calls with keys and values, without a lock.
pub(super) struct Told<K, V> {
    pub arrange: Option<Arrange<V>>,
    pub lifetime: Option<Lifetime<K, V>>,
    pub weigher: Option<Weigher<K, V>>,
    pub listener: Option<Listener<K, V>>,
}

impl<K, V> Clone for Told<K, V> {
    fn clone(&self) -> Self {
        let (arrange, lifetime) = (self.arrange.clone(), self.lifetime.clone());
        Told { arrange, lifetime, weigher: self.weigher.clone(), listener: self.listener.clone() }
    }
}

/// What a get finds that misses.
pub(super) enum Begun<K> {
    /// The key is held by now.
    Held,
    /// Another loads it, and its key has not changed since that began. The caller has its key back.
    Wait(Arc<Flight>, K),
    /// The caller loads it.
    Load(Load),
}

/// What a load is for the store.
#[derive(Clone, Copy)]
enum Kind {
    /// A flight of that number.
    Flight(u64),
    /// Its value is to take the place of an entry that is held meanwhile.
    Beside(Beside),
    /// A flight of that number, which the store doesn't know: its value is to take the place of what has expired.
    BesideLeft(u64),
    /// None: nobody waits for it, and its value is the caller's own. Another key has the id, or too many are loaded.
    Alone { clashes: bool },
}

/// A load that its caller makes.
pub(super) struct Load {
    id: u64,
    kind: Kind,
    began: Instant,
    /// Whether its caller has ended it.
    is_over: AtomicBool,
}

impl Load {
    fn of(id: u64, kind: Kind) -> Load {
        Load { id, kind, began: Instant::now(), is_over: AtomicBool::new(false) }
    }

    pub fn id(&self) -> u64 {
        self.id
    }
}

/// A value that was loaded.
pub(super) enum Landed<K, V> {
    /// The cache holds it, and so does the reader that was given.
    Held(Place<K, V>),
    /// The caller alone has it.
    Own(Box<Entry<K, V>>),
}

/// A load that has failed where this is dropped before its end.
pub(super) struct Failing<'a, K, V> {
    pub part: &'a Part<K, V>,
    pub load: &'a Load,
}

impl<K, V> Drop for Failing<'_, K, V> {
    fn drop(&mut self) {
        self.part.fail(self.load);
    }
}

impl<K, V> Part<K, V> {
    pub fn new(expiry: Expiry, told: Told<K, V>, store: Store<K, V>) -> Self {
        Part { expiry, expired: AtomicU64::new(0), told, store: Apart(Lock::new(store)) }
    }

    /// An entry whose value comes now, by the thread that calls.
    pub fn own_entry(&self, id: u64, key: K, value: V) -> Box<Entry<K, V>> {
        self.entry(Some(own_id()), id, key, value)
    }

    /// An entry whose value comes now, by that thread. It is told here how long it lives and how much it weighs, so without a
    /// lock.
    pub fn entry(&self, maker: Option<ThreadId>, id: u64, key: K, value: V) -> Box<Entry<K, V>> {
        let value = self.arranged(value);
        let own = self.told.lifetime.as_ref().and_then(|lifetime| lifetime(&key, &value));
        self.weighed(Entry::of(maker, id, key, value, self.expiry.life(own)))
    }

    /// A value in the form in which it is kept.
    pub fn arranged(&self, mut value: V) -> V {
        self.told.arrange.iter().for_each(|arrange| arrange(&mut value));
        value
    }

    /// An entry with what it weighs.
    pub fn weighed(&self, entry: Entry<K, V>) -> Box<Entry<K, V>> {
        let weight = self.told.weigher.as_ref().map_or(1, |weigher| weigher(&entry.key, &entry.value));
        Box::new(Entry { weight, ..entry })
    }

    /// Whether an entry is a key's, and hasn't expired: then it was found.
    pub fn is_found<Q: Eq + ?Sized>(&self, entry: &Entry<K, V>, key: &Q) -> bool
    where
        K: Borrow<Q>,
    {
        let now = self.expiry.now();
        if entry.key.borrow() != key || self.expiry.is_over(entry, now) {
            return false;
        }
        self.expiry.touch(entry, now);
        true
    }

    /// What `read` makes of the entry of an id, if it is the one that is looked for, under the lock: for a thread
    /// without a reader.
    pub fn read_if<R>(
        &self,
        id: u64,
        is_it: impl FnOnce(&Entry<K, V>) -> bool,
        read: impl FnOnce(&Entry<K, V>) -> R,
    ) -> Option<R> {
        let mut store = self.store();
        let entry = store.find(id)?;
        is_it(entry).then(|| read(entry))
    }

    /// The first of each few seats.
    pub fn firsts(&self) -> impl Iterator<Item = usize> {
        self.store().seats.firsts()
    }

    /// Who sits on these few.
    pub fn seated(&self, first: usize) -> Vec<Seated> {
        self.store().seats.from(first)
    }

    /// Takes of those the ones that sit there still: how many.
    pub fn invalidate_seated(&self, seated: &[Seated]) -> usize {
        self.change(|store| seated.iter().filter(|seated| store.invalidate_seated(seated)).count())
    }

    /// Counts under the lock, as a thread without a reader does.
    pub fn count(&self, count: impl FnOnce(&mut CacheStats)) {
        count(&mut self.store().counted);
    }

    /// Opens a flight of a key, unless it is held or there is one. Where the caller's own key isn't needed it is dropped
    /// without the lock.
    pub fn begin<Q: Eq + ?Sized>(&self, id: u64, key: &Q, owned: K) -> Begun<K>
    where
        K: Borrow<Q>,
    {
        let now = self.expiry.now();
        // What is taken out is dropped by a later call: where a drop panicked here, nobody would end the flight.
        let mut store = self.store();
        let kind = loop {
            match store.begin(id) {
                Miss::Load(number) => break Kind::Flight(number),
                Miss::Wait => match store.under_way.flight_of(id, key) {
                    Some(flight) => return Begun::Wait(flight, owned),
                    None => break Kind::Alone { clashes: true },
                },
                Miss::Held => match store.meet(id, key, now) {
                    Met::Own => return Begun::Held,
                    Met::Other => break Kind::Alone { clashes: true },
                    Met::Left => {
                        break store.begin_beside_left().map_or(Kind::Alone { clashes: false }, Kind::BesideLeft)
                    }
                    Met::Gone => {}
                },
                Miss::Full => break Kind::Alone { clashes: false },
            }
        };
        if let Kind::Flight(number) | Kind::BesideLeft(number) = kind {
            store.under_way.begin(id, number, owned);
        }
        drop(store);
        Begun::Load(Load::of(id, kind))
    }

    /// A load of a key whose values are too heavy to be held, as who waited for one is told: nobody waits for it.
    pub fn begin_alone(&self, id: u64) -> Load {
        Load::of(id, Kind::Alone { clashes: false })
    }

    /// The turn of an entry beside which its value is to be loaded anew, and isn't yet.
    pub fn due(&self, entry: &Entry<K, V>) -> Option<u64> {
        let is_due = self.expiry.is_due(entry) && !entry.refreshing.load(Relaxed);
        is_due.then(|| entry.turn.load(Relaxed))
    }

    /// Begins a load beside the entry of an id, unless another has, or the entry isn't the one of that turn any more.
    pub fn begin_refresh(&self, id: u64, turn: u64) -> Option<Load> {
        let beside = self.store().begin_refresh(id, turn)?;
        Some(Load::of(id, Kind::Beside(beside)))
    }

    /// What those share who wait for the load of a key, where there is one.
    pub fn flight_of<Q: Eq + ?Sized>(&self, id: u64, key: &Q) -> Option<Arc<Flight>>
    where
        K: Borrow<Q>,
    {
        self.store().under_way.flight_of(id, key)
    }

    /// Ends a flight by its value, which the reader holds then, where one is given.
    pub fn land(&self, load: &Load, entry: Box<Entry<K, V>>, reader: Option<&mut IdReader>) -> Landed<K, V> {
        let (mut hold, took) = (None, load.began.elapsed());
        let landed = self.change(|store| {
            load.is_over.store(true, Relaxed);
            store.reaping.lands();
            store.landings.count(took);
            let ended = match load.kind {
                Kind::Flight(number) => store.land(number, entry),
                Kind::Beside(beside) => store.refresh(beside, entry),
                Kind::BesideLeft(number) => store.land_beside_left(number, entry, self.expiry.now()),
                Kind::Alone { clashes } => {
                    store.counted.refused += 1;
                    store.counted.clashes += u64::from(clashes);
                    return Landed::Own(entry);
                }
            };
            match ended {
                Ok(place) => {
                    // Under the lock, so that nobody takes it out before.
                    hold = reader.map(|reader| Hold::of(reader, load.id()));
                    Landed::Held(place)
                }
                Err(entry) => {
                    store.count_own(&entry);
                    Landed::Own(entry)
                }
            }
        });
        if let Some(hold) = hold {
            hold.keep();
        }
        landed
    }

    /// Ends a flight without a value.
    pub fn crash(&self, load: &Load, why: Failure) {
        // What was told to nobody is dropped without the lock.
        let (how, took) = (End::Failed(why), load.began.elapsed());
        self.change(|store| {
            load.is_over.store(true, Relaxed);
            store.counted.failures += 1;
            store.counted.load_time += took;
            match load.kind {
                Kind::Flight(number) => store.fail(number, &how),
                Kind::Beside(beside) => _ = store.end_refresh(load.id, beside),
                Kind::BesideLeft(number) => _ = store.under_way.end(number, &how),
                Kind::Alone { .. } => {}
            }
        });
    }

    /// Ends a flight without a value where its caller hasn't ended it yet.
    pub fn fail(&self, load: &Load) {
        if !load.is_over.load(Relaxed) {
            self.crash(load, Failure::Unsaid);
        }
    }

    /// Puts an entry, whatever its id has, and whatever is loaded for it: whether it is held.
    pub fn put(&self, entry: Box<Entry<K, V>>) -> bool {
        // What isn't held is dropped without the lock.
        let refused = self.change(|store| store.put(entry).err());
        refused.is_none()
    }

    /// Puts an entry in place of one that its key has still.
    pub fn swap(&self, old: Place<K, V>, entry: Box<Entry<K, V>>) -> bool {
        let refused = self.change(|store| store.replace(old, entry).err());
        refused.is_none()
    }

    /// Takes what a key's id has, and what is loaded for it will not be held: whether the key had an entry.
    pub fn invalidate<Q: Eq + ?Sized>(&self, id: u64, key: &Q) -> bool
    where
        K: Borrow<Q>,
    {
        self.change(|store| store.invalidate(id).is_some_and(|entry| entry.key.borrow() == key))
    }

    /// What is loaded for an id will not be held.
    pub fn outdate(&self, id: u64) {
        self.change(|store| store.outdate(id));
    }

    /// The same of all ids.
    pub fn outdate_all(&self) {
        self.change(Store::outdate_all);
    }

    pub fn invalidate_all(&self) {
        self.change(Store::invalidate_all);
    }

    /// Takes what has expired, and frees what left and nobody sees any more.
    pub fn run_pending_tasks(&self) {
        let mut panic = FirstPanic::default();
        if self.expiry.is_set() {
            let now = self.expiry.now();
            panic.of_each(self.firsts(), |first| self.change(|store| store.expire_from(first, now)));
        }
        panic.of_each([()], |()| self.change(|store| store.reaping.hurry()));
        panic.then(Ok(()));
    }

    pub fn held(&self) -> usize {
        self.store().held()
    }

    /// How much its entries weigh, where weights count.
    pub fn weight(&self) -> Option<Weighed> {
        self.store().weight()
    }

    /// All but what readers count.
    pub fn stats(&self) -> CacheStats {
        let store = self.store();
        let mut stats = CacheStats { expired: self.expired.load(Relaxed), ..store.counted };
        store.landings.add_to(&mut stats);
        stats
    }

    /// All entries, of a cache that nobody uses any more.
    pub fn take_all(&mut self) -> Handful<Box<Entry<K, V>>> {
        self.store.0.get_mut().take_all()
    }

    /// Changes the store under its lock. Then, without it, those are told who wait for what has ended, and what came back
    /// is dropped, or given to who listens: also where the change panics, by a comparison of keys, which goes on at the end.
    pub fn change<R>(&self, change: impl FnOnce(&mut Store<K, V>) -> R) -> R {
        let (changed, over, doomed, turns_before) = {
            let mut store = self.store();
            let changed = catch_unwind(AssertUnwindSafe(|| change(&mut store)));
            (changed, store.under_way.take_over(), store.reap(), store.turns_before())
        };
        let mut panic = FirstPanic::default();
        // Mostly nobody waits, and nothing came out.
        if !over.is_empty() {
            panic.of_each(over, Over::tell);
        }
        if !doomed.is_empty() {
            let mut causes = self.causes_of(&doomed, turns_before).into_iter();
            panic.of_each(doomed, |entry| match (&self.told.listener, causes.next()) {
                (Some(listener), Some(cause)) => listener(entry.key, entry.value, cause),
                _ => drop(entry),
            });
        }
        panic.then(changed)
    }

    /// Why each entry left that came out, where somebody listens or entries expire; those that had expired are counted.
    /// Of the entries so many had been put when all were invalidated last.
    fn causes_of(&self, doomed: &Handful<Box<Entry<K, V>>>, turns_before: u64) -> Handful<RemovalCause> {
        if self.told.listener.is_none() && !self.expiry.is_set() {
            return Handful::default();
        }
        let now = self.expiry.now();
        let causes: Handful<_> = doomed.iter().map(|entry| self.cause_of(entry, turns_before, now)).collect();
        let expired = causes.iter().filter(|cause| **cause == RemovalCause::Expired).count();
        if expired > 0 {
            self.expired.fetch_add(expired as u64, Relaxed);
        }
        causes
    }

    fn cause_of(&self, entry: &Entry<K, V>, turns_before: u64, now: Moment) -> RemovalCause {
        match entry.cause.noted() {
            Some(cause) => cause,
            None if entry.turn.load(Relaxed) <= turns_before => RemovalCause::Explicit,
            // The store lets go first what has expired.
            None if self.expiry.is_over(entry, now) => RemovalCause::Expired,
            None => RemovalCause::Size,
        }
    }

    fn store(&self) -> Locked<'_, Store<K, V>> {
        self.store.0.lock()
    }
}
