//! What is under a part's lock: the entries that are held, by the numbers of their places.
use super::all::Seated;
use super::entry::Entry;
use super::expiry::{seat_of, Expiry, Moment};
use super::flights::End;
use super::handful::Handful;
use super::kept::KeptEntries;
use super::landings::Landings;
use super::leaving::RemovalCause;
use super::reaping::Reaping;
use super::seats::Seats;
use super::stats::CacheStats;
use super::under_way::UnderWay;
use crate::ids::{CameOut, Ids, Miss, Put, Terms};
use std::borrow::Borrow;
use std::mem::take;
use std::panic::{catch_unwind, resume_unwind, AssertUnwindSafe};
use std::ptr::NonNull;
use std::sync::atomic::Ordering::Relaxed;

pub(super) type Place<K, V> = NonNull<Entry<K, V>>;

/// Where an entry is held that was put, or the entry.
pub(super) type PutEntry<K, V> = Result<Place<K, V>, Box<Entry<K, V>>>;

/// Where the entry lies that has that number.
pub(super) fn place_of<K, V>(number: u64) -> Place<K, V> {
    NonNull::new(number as *mut Entry<K, V>).expect("a number is an entry's address")
}

/// In this order, so that what each miss writes lies together: most often another processor wrote it last. What is rarely
/// written comes behind it.
#[repr(C)]
pub(super) struct Store<K, V> {
    pub ids: Ids,
    /// How many entries there are: those that are held, and those that left and haven't come out.
    lying: usize,
    /// How many entries were put.
    pub turns: u64,
    pub reaping: Reaping,
    pub landings: Landings,
    pub under_way: UnderWay<K>,
    pub seats: Seats,
    /// What came out: no reader holds it, and none can find it.
    came_out: Handful<Place<K, V>>,
    /// All but what readers and landings count.
    pub counted: CacheStats,
    kept: KeptEntries<K, V>,
    /// How often all loads were outdated.
    clearings: u64,
    /// How many entries had been put when all were invalidated last.
    turns_before: u64,
    /// How much its entries weigh together at most, where weights count.
    pub most: Option<u64>,
    pub expiry: Expiry,
}

/// The entry beside which a value is loaded: it was not outdated when that began.
#[derive(Clone, Copy)]
pub(super) struct Beside {
    turn: u64,
    clearings: u64,
}

impl<K, V> Store<K, V> {
    pub fn new(ids: Ids, capacity: usize, expiry: Expiry, most: Option<u64>, reaping: Reaping) -> Store<K, V> {
        Store {
            ids,
            lying: 0,
            turns: 0,
            reaping,
            landings: Landings::default(),
            under_way: UnderWay::new(),
            seats: Seats::new(capacity),
            came_out: Handful::default(),
            counted: CacheStats::default(),
            kept: KeptEntries::new(),
            clearings: 0,
            turns_before: 0,
            most,
            expiry,
        }
    }

    pub fn held(&self) -> usize {
        self.ids.held()
    }

    /// Where the entry of an id lies: there until a call takes it.
    pub fn place(&mut self, id: u64) -> Option<Place<K, V>> {
        self.ids.look(id).map(place_of)
    }

    /// The entry of an id.
    pub fn find(&mut self, id: u64) -> Option<&Entry<K, V>> {
        // SAFETY: an entry is freed once it came out, which takes a call by `&mut`.
        self.place(id).map(|place| unsafe { &*place.as_ptr() })
    }

    /// Whether an id's entry, where there is one, has that key. Where the keys' `Eq` panics nobody can tell whether the entry
    /// is out of date by now, and it goes.
    pub fn has_key<Q: Eq + ?Sized>(&mut self, id: u64, key: &Q) -> Option<bool>
    where
        K: Borrow<Q>,
    {
        let entry = self.find(id)?;
        let compared = catch_unwind(AssertUnwindSafe(|| entry.key.borrow() == key));
        Some(compared.unwrap_or_else(|why| {
            self.note(id, RemovalCause::Explicit);
            self.ids.evict(id);
            resume_unwind(why)
        }))
    }

    /// Where a key's entry lies, if it has one that hasn't expired. One that has goes.
    pub fn of_key<Q: Eq + ?Sized>(&mut self, id: u64, key: &Q, now: Moment) -> Option<Place<K, V>>
    where
        K: Borrow<Q>,
    {
        self.expire(id, now);
        (self.has_key(id, key) == Some(true)).then(|| self.place(id)).flatten()
    }

    /// Begins the load of an id, unless that has an entry or is loaded. [`Store::under_way`] is to be told what begins.
    pub fn begin(&mut self, id: u64) -> Miss {
        // Beside what is left of an id the store knows of no flight.
        if self.expiry.leaves() && self.under_way.has(id) {
            return Miss::Wait;
        }
        self.ids.begin(id)
    }

    /// Ends a flight by an entry, or gives it back where it isn't held: as where the flight has ended since it was
    /// outdated.
    pub fn land(&mut self, number: u64, entry: Box<Entry<K, V>>) -> PutEntry<K, V> {
        let is_known = self.under_way.end(number, &self.end_by(&entry));
        if !is_known || self.is_too_heavy(&entry) {
            self.ids.fail(number);
            return Err(entry);
        }
        // While an id is loaded it has no entry.
        self.put_new(entry, |ids, place, terms| ids.land(number, place, terms))
    }

    /// Ends it without one, in that way.
    pub fn fail(&mut self, number: u64, how: &End) {
        self.under_way.end(number, how);
        self.ids.fail(number);
    }

    /// Begins a load beside the entry of an id, where that is the one of that turn still, and none is under way there.
    pub fn begin_refresh(&mut self, id: u64, turn: u64) -> Option<Beside> {
        let clearings = self.clearings;
        let entry = self.find(id).filter(|entry| entry.turn.load(Relaxed) == turn)?;
        (!entry.refreshing.swap(true, Relaxed)).then_some(Beside { turn, clearings })
    }

    /// Ends it by an entry in place of that one, or gives it back where that was outdated or has gone. A load that began once
    /// that had expired is younger, and goes on.
    pub fn refresh(&mut self, beside: Beside, entry: Box<Entry<K, V>>) -> PutEntry<K, V> {
        let is_of_now = self.end_refresh(entry.id, beside) && beside.clearings == self.clearings;
        match self.place(entry.id).filter(|_| is_of_now) {
            Some(old) => self.takes_place(old, entry),
            None => Err(entry),
        }
    }

    /// Ends it without one, so that another may begin there: whether that entry is there still.
    pub fn end_refresh(&mut self, id: u64, beside: Beside) -> bool {
        let entry = self.find(id).filter(|entry| entry.turn.load(Relaxed) == beside.turn);
        entry.is_some_and(|entry| entry.refreshing.swap(false, Relaxed))
    }

    /// What is loaded for an id will not be held. That load ends here, so that who misses the id now begins another.
    pub fn outdate(&mut self, id: u64) {
        if let Some(number) = self.under_way.outdate(id) {
            self.ids.fail(number);
        }
        if self.expiry.refreshes() {
            self.outdate_beside(id);
        }
    }

    /// What is loaded beside the entry of an id will not be held, and no other load begins there.
    fn outdate_beside(&mut self, id: u64) {
        self.turns += 1;
        let turn = self.turns;
        if let Some(entry) = self.find(id) {
            entry.turn.store(turn, Relaxed);
            entry.refreshing.store(true, Relaxed);
        }
    }

    /// The same of all ids.
    pub fn outdate_all(&mut self) {
        self.clearings += 1;
        while let Some(number) = self.under_way.outdate_one() {
            self.ids.fail(number);
        }
    }

    /// Puts an entry in place of what its id has, or gives it back where the id is being changed, or where it is too heavy. Then
    /// the id has none.
    pub fn put(&mut self, entry: Box<Entry<K, V>>) -> PutEntry<K, V> {
        let id = entry.id;
        self.outdate(id);
        let old = self.place(id);
        let put = self.put_in_place(old, entry, |ids, place, terms| ids.put(id, place, terms));
        put.as_ref().err().into_iter().for_each(|entry| self.count_own(entry));
        put
    }

    /// The same in place of an entry that the id has still, or gives it back where that has gone.
    pub fn swap(&mut self, old: Place<K, V>, entry: Box<Entry<K, V>>) -> PutEntry<K, V> {
        let id = entry.id;
        if self.place(id) != Some(old) {
            return Err(entry);
        }
        // A load that began once that had expired.
        self.under_way.outdate(id);
        self.takes_place(old, entry)
    }

    fn takes_place(&mut self, old: Place<K, V>, entry: Box<Entry<K, V>>) -> PutEntry<K, V> {
        let id = entry.id;
        self.put_in_place(Some(old), entry, |ids, place, terms| ids.swap(id, old.as_ptr() as u64, place, terms))
    }

    /// The same by who made the entry of that one: where it is too heavy that is counted.
    pub fn replace(&mut self, old: Place<K, V>, entry: Box<Entry<K, V>>) -> PutEntry<K, V> {
        let put = self.swap(old, entry);
        let is_refused = put.as_ref().is_err_and(|entry| self.is_too_heavy(entry));
        self.counted.refused += u64::from(is_refused);
        put
    }

    /// Puts an entry in place of the one that its id has, if any.
    fn put_in_place(
        &mut self,
        old: Option<Place<K, V>>,
        entry: Box<Entry<K, V>>,
        put: impl FnOnce(&mut Ids, u64, Terms) -> Put,
    ) -> PutEntry<K, V> {
        let id = entry.id;
        if self.is_too_heavy(&entry) {
            // What is loaded for the id is outdated by now, or is younger than this, and goes on.
            self.leaves(old, RemovalCause::Explicit);
            self.ids.evict(id);
            return Err(entry);
        }
        let put = self.put_with(entry, old.is_none(), put);
        self.leaves(old, if put.is_ok() { RemovalCause::Replaced } else { RemovalCause::Explicit });
        put
    }

    /// Puts the entry of an id that has none.
    pub fn put_new(
        &mut self,
        entry: Box<Entry<K, V>>,
        put: impl FnOnce(&mut Ids, u64, Terms) -> Put,
    ) -> PutEntry<K, V> {
        if self.is_too_heavy(&entry) {
            return Err(entry);
        }
        self.put_with(entry, true, put)
    }

    fn put_with(
        &mut self,
        mut entry: Box<Entry<K, V>>,
        is_new: bool,
        put: impl FnOnce(&mut Ids, u64, Terms) -> Put,
    ) -> PutEntry<K, V> {
        let (wanted, seat) = (self.held() + usize::from(is_new), self.seats.take(entry.id));
        let terms = self.expiry.terms(entry.life, entry.weight, seat);
        self.turns += 1;
        (*entry.turn.get_mut(), entry.seat) = (self.turns, seat);
        let place = NonNull::from(Box::leak(entry));
        match put(&mut self.ids, place.as_ptr() as u64, terms) {
            Put::Held(old) => {
                self.lying += 1;
                old.into_iter().for_each(|out| self.comes_out(out));
                self.landings.evictions += (wanted - self.held()) as u64;
                Ok(place)
            }
            Put::Own => {
                self.seats.leave(seat);
                // SAFETY: it is this call's own still.
                Err(unsafe { Box::from_raw(place.as_ptr()) })
            }
        }
    }

    /// Takes the entry of an id, and what is loaded for it will not be held: what it took, which lies there until the next
    /// [`Store::reap`].
    pub fn invalidate(&mut self, id: u64) -> Option<&Entry<K, V>> {
        let place = self.place(id);
        self.leaves(place, RemovalCause::Explicit);
        self.ids.invalidate(id);
        self.outdate(id);
        // SAFETY: as of one that is found.
        place.map(|place| unsafe { &*place.as_ptr() })
    }

    /// The same of an entry that sits there still: whether it does.
    pub fn invalidate_seated(&mut self, seated: &Seated) -> bool {
        let is_there = self.find(seated.id).is_some_and(|entry| entry.seat == seated.seat);
        if is_there {
            self.invalidate(seated.id);
        }
        is_there
    }

    pub fn invalidate_all(&mut self) {
        self.turns_before = self.turns;
        self.ids.invalidate_all();
        self.outdate_all();
    }

    /// How many entries had been put when all were invalidated last.
    pub fn turns_before(&self) -> u64 {
        self.turns_before
    }

    /// Takes the entry of an id where it has expired: whether it had.
    pub fn expire(&mut self, id: u64, now: Moment) -> bool {
        let expiry = self.expiry;
        let is_over = self.find(id).is_some_and(|entry| expiry.is_over(entry, now));
        if is_over {
            self.note(id, RemovalCause::Expired);
            self.counted.evictions += u64::from(self.ids.evict(id));
        }
        is_over
    }

    /// The same of those who sit on a few seats, and of whom nothing is left.
    pub fn expire_from(&mut self, first: usize, now: Moment) {
        let expiry = self.expiry;
        for Seated { id, .. } in self.seats.from(first) {
            if self.find(id).is_some_and(|entry| expiry.is_gone(entry, now)) {
                self.expire(id, now);
            }
        }
    }

    /// Begins a change of an id. Where too many are under way its entry goes, and the change isn't known: then it has to end
    /// with an invalidation.
    pub fn begin_change(&mut self, id: u64) -> bool {
        let is_known = self.ids.begin_change(id);
        if !is_known {
            self.invalidate(id);
        }
        self.outdate(id);
        is_known
    }

    /// Notes why the entry of an id is about to leave.
    pub fn note(&mut self, id: u64, cause: RemovalCause) {
        let place = self.place(id);
        self.leaves(place, cause);
    }

    /// Notes why an entry leaves, which the store has still, or which has come out and isn't freed.
    fn leaves(&mut self, place: Option<Place<K, V>>, cause: RemovalCause) {
        // SAFETY: an entry is freed once it came out, by a later call of `reap`.
        let Some(entry) = place.map(|place| unsafe { &*place.as_ptr() }) else { return };
        entry.cause.note(cause);
    }

    pub fn end_change(&mut self, id: u64) {
        self.ids.end_change(id);
        // What began to be loaded meanwhile will not be held either.
        self.outdate(id);
    }

    /// The entries that came out. Where it is time to look these are all that left but those that readers hold.
    pub fn reap(&mut self) -> Handful<Box<Entry<K, V>>> {
        let waiting = self.lying - self.held();
        if self.reaping.is_due(waiting) {
            let still = self.look_for(waiting);
            self.reaping.looked(still);
        }
        // Mostly nothing did, and then nothing is written.
        if self.came_out.is_empty() {
            return Handful::default();
        }
        // SAFETY: nobody can see them any more, and each came out once.
        take(&mut self.came_out).map(|place| unsafe { Box::from_raw(place.as_ptr()) })
    }

    /// Looks for those who wait, so many: how many wait still.
    fn look_for(&mut self, waiting: usize) -> usize {
        for found in 0..waiting {
            let Some(out) = self.ids.reap() else { return waiting - found };
            self.comes_out(out);
        }
        0
    }

    fn comes_out(&mut self, out: CameOut) {
        self.lying -= 1;
        let seat = seat_of(out.stamp);
        self.seats.leave(seat);
        let place = place_of(out.number);
        if !self.kept.comes_out(place) {
            self.came_out.push(place);
        }
    }

    /// Leaves an entry where it lies until it is let go as often, also where it comes out before.
    pub fn keep(&mut self, place: Place<K, V>) {
        self.kept.keep(place);
    }

    pub fn let_go(&mut self, place: Place<K, V>) {
        if self.kept.let_go(place) {
            self.came_out.push(place);
        }
    }

    /// All entries, of a cache that nobody uses any more: no reader holds one.
    pub fn take_all(&mut self) -> Handful<Box<Entry<K, V>>> {
        self.ids.invalidate_all();
        self.reaping.hurry();
        self.reap()
    }
}
