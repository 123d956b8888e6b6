//! Values that are put where their key has none, or in place of the one that they were made of.
use super::entry::Entry;
use super::part::Part;
use super::store::Store;
use super::Cache;
use std::borrow::Borrow;
use std::error::Error;
use std::fmt;
use std::hash::{BuildHasher, Hash};

/// A value that [`Cache::insert_if_absent`] didn't put, and why.
#[derive(Clone, Copy, Debug, PartialEq, Eq)]
pub enum NotInserted<V> {
    /// The key has another, which hasn't expired.
    Present(V),
    /// The key has none, and none is held until its [`Change`](crate::Change) is over.
    Changing(V),
    /// It weighs more than its part of the cache may ([`CacheBuilder::max_weight`](crate::CacheBuilder::max_weight)), and
    /// the key has none.
    TooHeavy(V),
}

impl<V> NotInserted<V> {
    /// The value.
    pub fn into_value(self) -> V {
        match self {
            NotInserted::Present(value) | NotInserted::Changing(value) | NotInserted::TooHeavy(value) => value,
        }
    }

    fn map<T>(self, map: impl FnOnce(V) -> T) -> NotInserted<T> {
        match self {
            NotInserted::Present(value) => NotInserted::Present(map(value)),
            NotInserted::Changing(value) => NotInserted::Changing(map(value)),
            NotInserted::TooHeavy(value) => NotInserted::TooHeavy(map(value)),
        }
    }
}

impl<V> fmt::Display for NotInserted<V> {
    fn fmt(&self, f: &mut fmt::Formatter<'_>) -> fmt::Result {
        f.write_str(match self {
            NotInserted::Present(_) => "the key has a value",
            NotInserted::Changing(_) => "the key is being changed",
            NotInserted::TooHeavy(_) => "it weighs more than may be held",
        })
    }
}

impl<V: fmt::Debug> Error for NotInserted<V> {}

impl<K: Hash + Eq, V, S: BuildHasher> Cache<K, V, S> {
    /// Puts a value where its key has none, or one that has expired. A load that is under way for the key will not be
    /// held then, and nobody waits for it any more. Of several threads that do so at a time one puts its value. Refused
    /// with [`NotInserted::Present`], [`NotInserted::Changing`] or [`NotInserted::TooHeavy`], which give the value back.
    ///
    /// ```
    /// use nr::{Cache, NotInserted};
    ///
    /// let jobs: Cache<String, u64> = Cache::builder().open()?;
    /// assert_eq!(jobs.insert_if_absent("nightly".into(), 1), Ok(()));
    /// // Another worker has the job by now.
    /// assert_eq!(jobs.insert_if_absent("nightly".into(), 2), Err(NotInserted::Present(2)));
    /// assert_eq!(jobs.get("nightly"), Some(1));
    /// # Ok::<(), nr::Fault>(())
    /// ```
    pub fn insert_if_absent(&self, key: K, value: V) -> Result<(), NotInserted<V>> {
        let id = self.shared.id_of(&key);
        let part = self.shared.part_of(id);
        part.put_if_absent(part.own_entry(id, key, value)).map_err(|refused| refused.map(|entry| entry.value))
    }

    /// Puts a new value, which `make` makes of the one that the key has, or of none, in place of just that: `make` runs
    /// again where it was replaced or has gone meanwhile, or where another has come. So of several threads that do so at
    /// a time none overwrites what another has put. `make` runs without a lock, and may call the cache. A load of the key
    /// that is under way will not be held. Whether the cache holds the value: it doesn't during a
    /// [`Change`](crate::Change), nor where it is too heavy. Since any entry may go, `make` is told of none also where the
    /// key had one once.
    ///
    /// ```
    /// let visits: nr::Cache<String, u64> = nr::Cache::builder().open()?;
    /// for page in ["home", "about", "home"] {
    ///     visits.upsert_with(page, |visits| visits.map_or(1, |visits| visits + 1));
    /// }
    /// assert_eq!(visits.get("home"), Some(2));
    /// # Ok::<(), nr::Fault>(())
    /// ```
    pub fn upsert_with<Q>(&self, key: &Q, mut make: impl FnMut(Option<&V>) -> V) -> bool
    where
        K: Borrow<Q>,
        Q: Hash + Eq + ToOwned<Owned = K> + ?Sized,
    {
        let id = self.shared.id_of(key);
        let part = self.shared.part_of(id);
        loop {
            // A load that began before may have read what is about to be replaced.
            let old = part.keep(id, key, |store| store.outdate(id));
            let value = make(old.as_ref().map(|old| &old.value));
            match old {
                Some(old) => {
                    let entry = part.entry(old.maker, id, key.to_owned(), value);
                    if old.swap(entry) {
                        return true;
                    }
                }
                None => match part.put_if_absent(part.own_entry(id, key.to_owned(), value)) {
                    Ok(()) => return true,
                    Err(NotInserted::Changing(_) | NotInserted::TooHeavy(_)) => return false,
                    Err(NotInserted::Present(_)) => {}
                },
            }
        }
    }
}

impl<K: Eq, V> Part<K, V> {
    /// Puts an entry whose key has none, or one that has expired.
    fn put_if_absent(&self, entry: Box<Entry<K, V>>) -> Result<(), NotInserted<Box<Entry<K, V>>>> {
        let (id, now) = (entry.id, self.expiry.now());
        // Where the keys' `Eq` panics it is dropped without the lock.
        let mut entry = Some(entry);
        let refused = self.change(|store: &mut Store<K, V>| {
            let is_present = entry.iter().any(|entry| store.of_key(id, &entry.key, now).is_some());
            match entry.take()? {
                entry if is_present => Some(NotInserted::Present(entry)),
                entry => store.put(entry).err().map(|entry| match store.is_too_heavy(&entry) {
                    true => NotInserted::TooHeavy(entry),
                    false => NotInserted::Changing(entry),
                }),
            }
        });
        refused.map_or(Ok(()), Err)
    }
}
