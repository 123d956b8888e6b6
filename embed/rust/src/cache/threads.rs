//! Gets without a reader in hand, by any number of threads.
use super::desk::At;
use super::entry::Entry;
use super::failure::Failure;
use super::flights::End;
use super::own::with_desk;
use super::part::{Begun, Failing, Load, Part};
use super::request::{Request, Sought};
use super::{Cache, Wait};
use std::borrow::Borrow;
use std::convert::Infallible;
use std::hash::{BuildHasher, Hash};
use std::sync::Arc;
use std::thread::{self, ThreadId};

/// A thread keeps a reader for itself from its first get on, until it ends, as long as there are readers: then its gets take
/// no lock. Others look under the lock of a key's part, where `V::clone` runs too.
impl<K: Hash + Eq + 'static, V: Clone + 'static, S: BuildHasher + 'static> Cache<K, V, S> {
    /// A clone of a key's value, where the cache holds it. For a value that isn't cheap to clone take an `Arc` of it.
    pub fn get<Q>(&self, key: &Q) -> Option<V>
    where
        K: Borrow<Q>,
        Q: Hash + Eq + ?Sized,
    {
        self.look(self.shared.at(key), key)
    }

    /// Whether the cache holds a key's value. It counts as no get.
    pub fn contains_key<Q>(&self, key: &Q) -> bool
    where
        K: Borrow<Q>,
        Q: Hash + Eq + ?Sized,
    {
        self.read(self.shared.at(key), key, |_| ()).is_some()
    }

    /// A clone of a key's value. Where the cache doesn't hold it, one caller loads it, by its own thread and without a lock,
    /// and the others wait for that. Where it panics, one of those who wait loads.
    pub fn get_with<Q>(&self, key: &Q, load: impl FnOnce() -> V) -> V
    where
        K: Borrow<Q>,
        Q: Hash + Eq + ToOwned<Owned = K> + ?Sized,
    {
        match self.try_get_with(key, || Ok::<V, Infallible>(load())) {
            Ok(value) => value,
            Err(never) => match *never {},
        }
    }

    /// As [`Cache::get_with`], by a load that may fail: all who wait for it are told why then, where their own loads
    /// fail by the same type. By [`CacheReader::try_get_with`](super::CacheReader::try_get_with) they try in turn.
    pub fn try_get_with<Q, E>(&self, key: &Q, load: impl FnOnce() -> Result<V, E>) -> Result<V, Arc<E>>
    where
        K: Borrow<Q>,
        Q: Hash + Eq + ToOwned<Owned = K> + ?Sized,
        E: Send + Sync + 'static,
    {
        let at = self.shared.at(key);
        let mut found = self.look(at, key);
        let part = &self.shared.parts()[at.part];
        let own = loop {
            if let Some(value) = found {
                return Ok(value);
            }
            match part.begin(at.id, key, key.to_owned()) {
                Begun::Load(own) => break own,
                Begun::Wait(flight, _) => {
                    part.count(|counted| counted.waits += 1);
                    match flight.wait(None) {
                        Some(End::TooHeavy) => break part.begin_alone(at.id),
                        end => {
                            if let Some(why) = end.and_then(failure) {
                                return self.or_left(at, key, Err(why));
                            }
                        }
                    }
                }
                Begun::Held => {}
            }
            found = self.read(at, key, V::clone);
        };
        self.or_left(at, key, load_by(part, &own, key, load))
    }

    /// A clone of a key's value, or its request, which one caller gets until it is filled or has failed, or the load
    /// that is under way: for loads in a pool, or in a task of their own.
    pub fn get_or_request<Q>(&self, key: &Q) -> Sought<V, K, V, S>
    where
        K: Borrow<Q>,
        Q: Hash + Eq + ToOwned<Owned = K> + ?Sized,
    {
        let at = self.shared.at(key);
        let part = &self.shared.parts()[at.part];
        let seen = |entry: &Entry<K, V>| (entry.value.clone(), part.due(entry));
        let mut found = self.look_with(at, key, seen);
        loop {
            if let Some((value, due)) = found {
                return match due.and_then(|turn| part.begin_refresh(at.id, turn)) {
                    Some(load) => Sought::Aged(value, Request::of(self.clone(), load, key)),
                    None => Sought::Held(value),
                };
            }
            match part.begin(at.id, key, key.to_owned()) {
                Begun::Held => found = self.read_if(at, |entry| part.is_found(entry, key), seen),
                Begun::Wait(flight, key) => return Sought::UnderWay(Wait::of(self.clone(), at.id, key, flight)),
                Begun::Load(load) => return Sought::Missing(Request::of(self.clone(), load, key)),
            }
        }
    }

    /// A get's first look, which is a hit or a miss.
    pub(super) fn look<Q: Eq + ?Sized>(&self, at: At, key: &Q) -> Option<V>
    where
        K: Borrow<Q>,
    {
        self.look_with(at, key, |entry| entry.value.clone())
    }

    /// The same, and what `read` makes of the entry.
    fn look_with<Q: Eq + ?Sized, R>(&self, at: At, key: &Q, read: impl FnOnce(&Entry<K, V>) -> R) -> Option<R>
    where
        K: Borrow<Q>,
    {
        let part = &self.shared.parts()[at.part];
        with_desk(&self.shared, |desk| {
            let Some(desk) = desk else {
                let found = part.read_if(at.id, |entry| part.is_found(entry, key), read);
                part.count(|counted| match found {
                    Some(_) => counted.hits += 1,
                    None => counted.misses += 1,
                });
                return found;
            };
            let counts = self.shared.counts(desk);
            let count_and_read = |entry: &Entry<K, V>| {
                counts.count_hit();
                read(entry)
            };
            let found = desk.read_if(at, |entry| part.is_found(entry, key), count_and_read);
            if found.is_none() {
                counts.count_miss();
            }
            found
        })
    }

    /// What `read` makes of a key's value.
    pub(super) fn read<Q: Eq + ?Sized, R>(&self, at: At, key: &Q, read: impl FnOnce(&V) -> R) -> Option<R>
    where
        K: Borrow<Q>,
    {
        let part = &self.shared.parts()[at.part];
        self.read_if(at, |entry| part.is_found(entry, key), |entry| read(&entry.value))
    }

    /// What `read` makes of the entry of an id, if it is the one that is looked for.
    pub(super) fn read_if<R>(
        &self,
        at: At,
        is_it: impl FnOnce(&Entry<K, V>) -> bool,
        read: impl FnOnce(&Entry<K, V>) -> R,
    ) -> Option<R> {
        with_desk(&self.shared, |desk| match desk {
            None => self.shared.parts()[at.part].read_if(at.id, is_it, read),
            Some(desk) => desk.read_if(at, is_it, read),
        })
    }
}

/// The calling thread's id, for which it asks once: who asks counts the owners of the thread's handle.
pub(super) fn own_id() -> ThreadId {
    thread_local!(static OWN: ThreadId = thread::current().id());
    OWN.with(|own| *own)
}

/// Ends a load by what it gives. Where it or a clone of its key panics, it has failed.
fn load_by<Q: ToOwned + ?Sized, V: Clone, E: Send + Sync + 'static>(
    part: &Part<Q::Owned, V>,
    own: &Load,
    key: &Q,
    load: impl FnOnce() -> Result<V, E>,
) -> Result<V, Arc<E>> {
    let _failing = Failing { part, load: own };
    end_by(part, own, key.to_owned(), Some(own_id()), load())
}

/// Ends a load by what it gave, in that thread where it ran in one.
pub(super) fn end_by<K, V: Clone, E: Send + Sync + 'static>(
    part: &Part<K, V>,
    own: &Load,
    key: K,
    maker: Option<ThreadId>,
    gave: Result<V, E>,
) -> Result<V, Arc<E>> {
    match gave {
        Ok(value) => {
            let entry = part.entry(maker, own.id(), key, value);
            let value = entry.value.clone();
            part.land(own, entry, None);
            Ok(value)
        }
        Err(why) => {
            let why = Arc::new(why);
            part.crash(own, Failure::Shared(why.clone()));
            Err(why)
        }
    }
}

/// What an end tells of a failure, where that is of this type.
pub(super) fn failure<E: Send + Sync + 'static>(end: End) -> Option<Arc<E>> {
    match end {
        End::Loaded | End::TooHeavy | End::Outdated => None,
        End::Failed(why) => why.shared(),
    }
}
