//! What a thread finds and loads values with.
use super::counts::Counts;
use super::desk::{At, Desk};
use super::entry::Entry;
use super::flights::End;
use super::hold::Hold;
use super::part::{Begun, Failing, Landed, Load, Part};
use super::request::{Request, Sought};
use super::shared::Shared;
use super::store::Place;
use super::sync::now;
use super::{Cache, Wait};
use std::borrow::Borrow;
use std::collections::hash_map::RandomState;
use std::convert::Infallible;
use std::error::Error;
use std::fmt;
use std::hash::{BuildHasher, Hash};
use std::mem::ManuallyDrop;
use std::ops::Deref;
use std::sync::Arc;
use std::time::Duration;

/// A reader of a cache, for one thread at a time. Dropped, it goes back to its cache by itself.
///
/// A thread that waits for a load while it runs a load of its own, or that loads a key within the load of the same key,
/// may wait for itself: give a load's inner gets a time limit.
pub struct CacheReader<K: Hash + Eq, V, S: BuildHasher = RandomState> {
    desk: ManuallyDrop<Desk>,
    cache: Cache<K, V, S>,
}

impl<K: Hash + Eq, V, S: BuildHasher> CacheReader<K, V, S> {
    pub(super) fn of(desk: Desk, cache: Cache<K, V, S>) -> CacheReader<K, V, S> {
        CacheReader { desk: ManuallyDrop::new(desk), cache }
    }

    /// The cache that it reads.
    pub fn cache(&self) -> &Cache<K, V, S> {
        &self.cache
    }

    /// The value of a key, where the cache holds it. It stays as it is while it is borrowed, whatever happens to its key.
    /// Takes no lock.
    pub fn get<Q: Hash + Eq + ?Sized>(&mut self, key: &Q) -> Option<CacheRef<'_, K, V>>
    where
        K: Borrow<Q>,
    {
        let at = self.shared().at(key);
        let place = self.look(at, key)?;
        Some(self.borrowed(at, place))
    }

    /// The value of a key. Where the cache doesn't hold it, one caller loads it, by its own thread and without a lock,
    /// and the others wait for that.
    pub fn get_with<Q>(&mut self, key: &Q, load: impl FnOnce() -> V) -> CacheRef<'_, K, V>
    where
        K: Borrow<Q>,
        Q: Hash + Eq + ToOwned<Owned = K> + ?Sized,
    {
        match self.obtain(key, None, || Ok::<V, Infallible>(load())) {
            Ok(found) => found,
            Err(LoadError::Failed(never)) => match never {},
            Err(LoadError::TimedOut) => unreachable!("it has no time limit"),
        }
    }

    /// As [`CacheReader::get_with`], by a load that may fail. Where it does, or panics, one of those who wait tries.
    pub fn try_get_with<Q, E>(&mut self, key: &Q, load: impl FnOnce() -> Result<V, E>) -> Result<CacheRef<'_, K, V>, E>
    where
        K: Borrow<Q>,
        Q: Hash + Eq + ToOwned<Owned = K> + ?Sized,
    {
        self.obtain(key, None, load).map_err(|why| match why {
            LoadError::Failed(why) => why,
            LoadError::TimedOut => unreachable!("it has no time limit"),
        })
    }

    /// As [`CacheReader::get_with`], and none once it has waited that long for others. Its own load has no limit.
    pub fn get_with_timeout<Q>(
        &mut self,
        key: &Q,
        timeout: Duration,
        load: impl FnOnce() -> V,
    ) -> Option<CacheRef<'_, K, V>>
    where
        K: Borrow<Q>,
        Q: Hash + Eq + ToOwned<Owned = K> + ?Sized,
    {
        self.obtain(key, Some(timeout), || Ok::<V, Infallible>(load())).ok()
    }

    /// As [`CacheReader::try_get_with`], and refused with [`LoadError::TimedOut`] once it has waited that long for others.
    pub fn try_get_with_timeout<Q, E>(
        &mut self,
        key: &Q,
        timeout: Duration,
        load: impl FnOnce() -> Result<V, E>,
    ) -> Result<CacheRef<'_, K, V>, LoadError<E>>
    where
        K: Borrow<Q>,
        Q: Hash + Eq + ToOwned<Owned = K> + ?Sized,
    {
        self.obtain(key, Some(timeout), load)
    }

    /// The value of a key, or its request, which one caller gets until it is filled or has failed: for loads in a pool or
    /// in a thread of their own.
    pub fn get_or_request<Q>(&mut self, key: &Q) -> Sought<CacheRef<'_, K, V>, K, V, S>
    where
        K: Borrow<Q>,
        Q: Hash + Eq + ToOwned<Owned = K> + ?Sized,
    {
        let at = self.shared().at(key);
        let mut found = self.look(at, key);
        loop {
            if let Some(place) = found {
                let part = &self.cache.shared.parts()[at.part];
                let held = CacheRef(Borrowed::Held(place, self.desk.hold(at)));
                return match part.due(held.entry()).and_then(|turn| part.begin_refresh(at.id, turn)) {
                    Some(load) => Sought::Aged(held, Request::of(self.cache.clone(), load, key)),
                    None => Sought::Held(held),
                };
            }
            match self.begin(at, key) {
                Begun::Held => found = self.find(at, key),
                Begun::Wait(flight, key) => return Sought::UnderWay(Wait::of(self.cache.clone(), at.id, key, flight)),
                Begun::Load(load) => return Sought::Missing(Request::of(self.cache.clone(), load, key)),
            }
        }
    }

    /// The value of a key, for whose load, where one is under way, it waits so long.
    pub fn get_waiting<Q>(&mut self, key: &Q, timeout: Duration) -> Result<CacheRef<'_, K, V>, WaitError>
    where
        K: Borrow<Q>,
        Q: Hash + Eq + ?Sized,
    {
        let at = self.shared().at(key);
        if let Some(place) = self.look(at, key) {
            return Ok(self.borrowed(at, place));
        }
        if let Some(flight) = self.part(at).flight_of(at.id, key) {
            self.counts().count_wait();
            match flight.wait(now().checked_add(timeout)) {
                None => return Err(WaitError::TimedOut),
                Some(End::Failed(why)) => return self.left(at, key).ok_or(WaitError::Failed(why.said())),
                Some(End::Loaded | End::TooHeavy | End::Outdated) => {}
            }
        }
        let place = self.find(at, key).ok_or(WaitError::Missing)?;
        Ok(self.borrowed(at, place))
    }

    /// Puts a new value in place of a key's, made of the one that it has; `change` runs again where that was replaced
    /// meanwhile. Whether the cache held one. A load of the key that is under way will not be held.
    pub fn update<Q>(&mut self, key: &Q, mut change: impl FnMut(&V) -> V) -> bool
    where
        K: Borrow<Q>,
        Q: Hash + Eq + ToOwned<Owned = K> + ?Sized,
    {
        let at = self.shared().at(key);
        // A load that began before this call may have read what was to be changed. Once it is revoked, what is found here is
        // changed, and what isn't is loaded by later loads alone.
        self.part(at).outdate(at.id);
        while let Some(place) = self.find(at, key) {
            let part = &self.cache.shared.parts()[at.part];
            let old = CacheRef(Borrowed::Held(place, self.desk.hold(at)));
            let value = change(&old);
            let maker = old.entry().maker;
            let entry = part.entry(maker, at.id, key.to_owned(), value);
            let is_done = part.swap(place, entry);
            // Until here no other entry can have come to lie where the old one lies.
            drop(old);
            if is_done {
                return true;
            }
        }
        // What has expired is from before this call.
        self.part(at).expire_left(at.id);
        false
    }

    #[inline]
    fn obtain<Q, E>(
        &mut self,
        key: &Q,
        timeout: Option<Duration>,
        load: impl FnOnce() -> Result<V, E>,
    ) -> Result<CacheRef<'_, K, V>, LoadError<E>>
    where
        K: Borrow<Q>,
        Q: Hash + Eq + ToOwned<Owned = K> + ?Sized,
    {
        let at = self.shared().at(key);
        if let Some(place) = self.look(at, key) {
            return Ok(self.borrowed(at, place));
        }
        self.obtain_missed(at, key, timeout, load)
    }

    /// The same of a key that was missed. Apart from the hit, which so needs few registers and little of the stack.
    #[cold]
    #[inline(never)]
    fn obtain_missed<Q, E>(
        &mut self,
        at: At,
        key: &Q,
        timeout: Option<Duration>,
        load: impl FnOnce() -> Result<V, E>,
    ) -> Result<CacheRef<'_, K, V>, LoadError<E>>
    where
        K: Borrow<Q>,
        Q: Hash + Eq + ToOwned<Owned = K> + ?Sized,
    {
        // A limit beyond the end of time is none.
        let until = timeout.and_then(|timeout| now().checked_add(timeout));
        let own = loop {
            match self.begin(at, key) {
                Begun::Load(own) => break own,
                Begun::Wait(flight, _) => {
                    self.counts().count_wait();
                    match flight.wait(until) {
                        None => return Err(LoadError::TimedOut),
                        Some(End::TooHeavy) => break self.part(at).begin_alone(at.id),
                        Some(_) => {}
                    }
                }
                Begun::Held => {}
            }
            if let Some(place) = self.find(at, key) {
                return Ok(self.borrowed(at, place));
            }
        };
        self.load_own(at, key, &own, load).map_err(LoadError::Failed)
    }

    /// Ends a load of its own by what that gives, or where it fails by what is left of the key.
    fn load_own<Q, E>(
        &mut self,
        at: At,
        key: &Q,
        own: &Load,
        load: impl FnOnce() -> Result<V, E>,
    ) -> Result<CacheRef<'_, K, V>, E>
    where
        K: Borrow<Q>,
        Q: Eq + ToOwned<Owned = K> + ?Sized,
    {
        let part = &self.cache.shared.parts()[at.part];
        // Where the load ends without a value, by an error or a panic, this wakes those who wait.
        let failing = Failing { part, load: own };
        let value = match load() {
            Ok(value) => value,
            Err(why) => {
                drop(failing);
                return self.left(at, key).ok_or(why);
            }
        };
        let entry = part.own_entry(at.id, key.to_owned(), value);
        let reader = &mut self.desk.ids[at.part];
        Ok(CacheRef(match part.land(own, entry, Some(reader)) {
            Landed::Held(place) => Borrowed::Held(place, self.desk.hold(at)),
            Landed::Own(entry) => Borrowed::Own(entry),
        }))
    }

    /// Opens a flight of a key, unless it is held or there is one.
    fn begin<Q>(&self, at: At, key: &Q) -> Begun<K>
    where
        K: Borrow<Q>,
        Q: Eq + ToOwned<Owned = K> + ?Sized,
    {
        self.part(at).begin(at.id, key, key.to_owned())
    }

    /// Where the entry of a key lies, which stays there while the reader holds it. Without one it holds nothing.
    #[inline]
    fn find<Q: Eq + ?Sized>(&mut self, at: At, key: &Q) -> Option<Place<K, V>>
    where
        K: Borrow<Q>,
    {
        let part = &self.cache.shared.parts()[at.part];
        self.desk.find_if(at, |entry| part.is_found(entry, key))
    }

    /// The same for a get's first look, which is a hit or a miss.
    #[inline]
    fn look<Q: Eq + ?Sized>(&mut self, at: At, key: &Q) -> Option<Place<K, V>>
    where
        K: Borrow<Q>,
    {
        let found = self.find(at, key);
        match found {
            Some(_) => self.counts().count_hit(),
            None => self.counts().count_miss(),
        }
        found
    }

    /// What is left of a key whose load has failed.
    fn left<Q: Eq + ?Sized>(&mut self, at: At, key: &Q) -> Option<CacheRef<'_, K, V>>
    where
        K: Borrow<Q>,
    {
        let part = &self.cache.shared.parts()[at.part];
        let leaves = part.expiry.leaves();
        let place = leaves.then(|| self.desk.find_if(at, |entry| part.is_left(entry, key))).flatten()?;
        part.count(|counted| counted.stale += 1);
        Some(self.borrowed(at, place))
    }

    /// What the last find has found.
    #[inline]
    fn borrowed(&mut self, at: At, place: Place<K, V>) -> CacheRef<'_, K, V> {
        CacheRef(Borrowed::Held(place, self.desk.hold(at)))
    }

    fn part(&self, at: At) -> &Part<K, V> {
        &self.shared().parts()[at.part]
    }

    fn counts(&self) -> &Counts {
        self.shared().counts(&self.desk)
    }

    fn shared(&self) -> &Shared<K, V, S> {
        &self.cache.shared
    }
}

impl<K: Hash + Eq, V, S: BuildHasher> Drop for CacheReader<K, V, S> {
    fn drop(&mut self) {
        // What was borrowed and forgotten is let go.
        self.desk.let_go();
        // SAFETY: nothing uses it after this.
        let desk = unsafe { ManuallyDrop::take(&mut self.desk) };
        self.shared().spare().push(desk);
    }
}

impl<K: Hash + Eq, V, S: BuildHasher> fmt::Debug for CacheReader<K, V, S> {
    fn fmt(&self, f: &mut fmt::Formatter<'_>) -> fmt::Result {
        f.debug_struct("CacheReader").field("number", &self.desk.number).finish_non_exhaustive()
    }
}

enum Borrowed<'a, K, V> {
    Held(Place<K, V>, #[allow(dead_code)] Hold<'a>),
    Own(Box<Entry<K, V>>),
}

/// A value that is borrowed from a cache, or that was loaded and the cache doesn't hold.
pub struct CacheRef<'a, K, V>(Borrowed<'a, K, V>);

// SAFETY: it gives references to key and value, or owns both.
unsafe impl<K: Send + Sync, V: Send + Sync> Send for CacheRef<'_, K, V> {}
// SAFETY: as above.
unsafe impl<K: Sync, V: Sync> Sync for CacheRef<'_, K, V> {}

impl<K, V> CacheRef<'_, K, V> {
    /// Its key, as the cache has it.
    pub fn key(&self) -> &K {
        &self.entry().key
    }

    /// Whether the cache held the value when it was borrowed. It doesn't hold what was loaded while its key was
    /// invalidated, nor what was loaded while another key of its hash was there, or more than 1,024 others were, nor
    /// what is too heavy.
    pub fn is_held(&self) -> bool {
        matches!(self.0, Borrowed::Held(..))
    }

    fn entry(&self) -> &Entry<K, V> {
        match &self.0 {
            // SAFETY: the reader holds the entry as long as this borrows it.
            Borrowed::Held(place, _) => unsafe { place.as_ref() },
            Borrowed::Own(entry) => entry,
        }
    }
}

impl<K, V> Deref for CacheRef<'_, K, V> {
    type Target = V;

    fn deref(&self) -> &V {
        &self.entry().value
    }
}

impl<K, V: fmt::Debug> fmt::Debug for CacheRef<'_, K, V> {
    fn fmt(&self, f: &mut fmt::Formatter<'_>) -> fmt::Result {
        V::fmt(self, f)
    }
}

/// Why a get with a time limit has no value.
#[derive(Clone, Copy, Debug, PartialEq, Eq)]
pub enum LoadError<E> {
    /// Another's load took too long.
    TimedOut,
    /// Its own load failed.
    Failed(E),
}

impl<E: fmt::Display> fmt::Display for LoadError<E> {
    fn fmt(&self, f: &mut fmt::Formatter<'_>) -> fmt::Result {
        match self {
            LoadError::TimedOut => f.write_str("another's load took too long"),
            LoadError::Failed(why) => why.fmt(f),
        }
    }
}

impl<E: Error + 'static> Error for LoadError<E> {
    fn source(&self) -> Option<&(dyn Error + 'static)> {
        match self {
            LoadError::TimedOut => None,
            LoadError::Failed(why) => Some(why),
        }
    }
}

/// Why a get that waits for another's load has no value.
#[derive(Clone, Debug)]
pub enum WaitError {
    /// Nobody loads the key, or what was loaded is not held: it may be asked for anew.
    Missing,
    /// The load took too long.
    TimedOut,
    /// The load failed; where its [`Request`] was failed for a cause, for this one.
    Failed(Option<Arc<dyn Error + Send + Sync>>),
}

impl fmt::Display for WaitError {
    fn fmt(&self, f: &mut fmt::Formatter<'_>) -> fmt::Result {
        match self {
            WaitError::Missing => f.write_str("the cache doesn't hold the key"),
            WaitError::TimedOut => f.write_str("another's load took too long"),
            WaitError::Failed(None) => f.write_str("another's load failed"),
            WaitError::Failed(Some(why)) => why.fmt(f),
        }
    }
}

impl Error for WaitError {
    fn source(&self) -> Option<&(dyn Error + 'static)> {
        match self {
            WaitError::Failed(Some(why)) => Some(&**why),
            _ => None,
        }
    }
}
