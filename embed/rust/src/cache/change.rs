//! Values that change with the base.
use super::entry::Entry;
use super::kept::Kept;
use super::part::Part;
use super::threads::own_id;
use super::Cache;
use std::borrow::Borrow;
use std::collections::hash_map::RandomState;
use std::convert::Infallible;
use std::fmt;
use std::hash::{BuildHasher, Hash};

impl<K: Hash + Eq, V, S: BuildHasher> Cache<K, V, S> {
    /// Begins a change of a key's value in the base. No load that begins before the change has ended will be held, since it
    /// may have read the base before or after, so loads and changes may be at work together. Meanwhile gets find the
    /// value that was there.
    ///
    /// Of two changes of a key that are under way at a time nobody can tell which the base has made first: whichever
    /// ends first, the key has no value then, and the next get loads it.
    ///
    /// ```
    /// let prices: nr::Cache<String, u64> = nr::Cache::builder().open()?;
    /// assert_eq!(prices.get_with("tea", || 3), 3);
    /// let change = prices.change("tea");
    /// // Here the base's price is raised, while others read and load.
    /// assert!(change.commit_with(|price| price + 1));
    /// assert_eq!(prices.get("tea"), Some(4));
    /// # Ok::<(), nr::Fault>(())
    /// ```
    pub fn change<Q>(&self, key: &Q) -> Change<'_, K, V, S>
    where
        K: Borrow<Q>,
        Q: Hash + Eq + ToOwned<Owned = K> + ?Sized,
    {
        let id = self.shared.id_of(key);
        let mut change = Change { cache: self, id, is_known: None, key: Some(key.to_owned()) };
        self.shared.part_of(id).begin_change(id, &mut change.is_known);
        change
    }

    /// Begins a change and ends it, as [`Change::commit_with`] does: for a base that has changed by now, where loads are made
    /// by the same thread, and so are the key's changes. Whether a value that another thread has loaded, or that came by a
    /// [`Request`](crate::Request), is from before the change or from after it nobody can tell: it goes. For values that
    /// stand behind no base take [`Cache::upsert_with`].
    ///
    /// ```
    /// let prices: nr::Cache<String, u64> = nr::Cache::builder().open()?;
    /// assert_eq!(prices.get_with("tea", || 3), 3);
    /// // Here this thread has raised the base's price.
    /// assert!(prices.update_with("tea", |price| price + 1));
    /// assert_eq!(prices.get("tea"), Some(4));
    /// # Ok::<(), nr::Fault>(())
    /// ```
    pub fn update_with<Q>(&self, key: &Q, change: impl FnOnce(&V) -> V) -> bool
    where
        K: Borrow<Q>,
        Q: Hash + Eq + ToOwned<Owned = K> + ?Sized,
    {
        sure(self.change(key).end_own(|old| Ok(change(old))))
    }
}

/// A change of a key's value that is under way in the base. Dropped before its end, it takes what the cache holds of the key,
/// or of another key of its hash. Forgotten, it is under way for good: from then on each get of the key that finds nothing
/// loads a value that is its own.
#[must_use = "dropped, it takes the key's value from the cache"]
pub struct Change<'a, K: Hash + Eq, V, S: BuildHasher = RandomState> {
    cache: &'a Cache<K, V, S>,
    id: u64,
    /// Whether the store knows of it, from its begin to its end.
    is_known: Option<bool>,
    key: Option<K>,
}

impl<'a, K: Hash + Eq, V, S: BuildHasher> Change<'a, K, V, S> {
    /// Ends it with the value that `change` makes of the one that the cache has, where it has one: whether it holds the new
    /// one. No get that begins after this has returned sees the older one. `change` runs without a lock, and the change
    /// is under way until it has returned; where it panics, the value goes. The new value lives as long as the old one was
    /// to, and where that has expired there is none.
    pub fn commit_with(self, change: impl FnOnce(&V) -> V) -> bool {
        sure(self.end(|old| Ok(Some(change(&old.value)))))
    }

    /// The same by what may fail, and then the value goes; where the thread that calls hasn't made the value, it goes too.
    pub(super) fn end_own<E>(self, change: impl FnOnce(&V) -> Result<V, E>) -> Result<bool, E> {
        let own = Some(own_id());
        self.end(|old| if old.maker == own { change(&old.value).map(Some) } else { Ok(None) })
    }

    /// Ends it with a value that is made of the old one. Where none is made the old one goes.
    pub(super) fn end<E>(mut self, make: impl FnOnce(&Entry<K, V>) -> Result<Option<V>, E>) -> Result<bool, E> {
        let part = self.part();
        let (Some(true), Some(key)) = (self.is_known, &self.key) else { return Ok(false) };
        let Some(old) = part.keep(self.id, key, |_| {}) else {
            self.is_known = None;
            part.change(|store| store.end_change(self.id));
            return Ok(false);
        };
        let made = make(&old)?;
        // Without a value, its drop takes the old one.
        let (Some(value), Some(key)) = (made, self.key.take()) else { return Ok(false) };
        let life = part.expiry.as_long_as(old.life, part.expiry.now());
        let entry = part.weighed(Entry::of(old.maker, self.id, key, part.arranged(value), life));
        self.is_known = None;
        Ok(part.end_change(old, entry))
    }

    fn part(&self) -> &'a Part<K, V> {
        self.cache.shared.part_of(self.id)
    }
}

impl<K: Hash + Eq, V, S: BuildHasher> Drop for Change<'_, K, V, S> {
    fn drop(&mut self) {
        let Some(is_known) = self.is_known.take() else { return };
        self.part().change(|store| {
            if is_known {
                store.end_change(self.id);
            }
            store.invalidate(self.id);
        });
    }
}

impl<K: Hash + Eq + fmt::Debug, V, S: BuildHasher> fmt::Debug for Change<'_, K, V, S> {
    fn fmt(&self, f: &mut fmt::Formatter<'_>) -> fmt::Result {
        f.debug_struct("Change").field("key", &self.key).finish_non_exhaustive()
    }
}

impl<K, V> Part<K, V> {
    /// Begins a change of an id in the base: no load that began before its end will be held. It notes under the lock that
    /// it has begun, and whether the store knows of it: what is dropped then may panic.
    fn begin_change(&self, id: u64, is_known: &mut Option<bool>) {
        self.change(|store| *is_known = Some(store.begin_change(id)));
    }

    /// Ends it by an entry in place of the old one: whether it is held. It isn't where the old one has gone or expired, and
    /// where another change of the id is under way, both go.
    fn end_change(&self, old: Kept<'_, K, V>, entry: Box<Entry<K, V>>) -> bool {
        let now = self.expiry.now();
        let refused = old.end_by(|store, place| {
            store.end_change(entry.id);
            store.expire(entry.id, now);
            store.replace(place, entry).err()
        });
        refused.is_none()
    }
}

/// What can't fail.
fn sure<T>(made: Result<T, Infallible>) -> T {
    match made {
        Ok(made) => made,
        Err(never) => match never {},
    }
}
