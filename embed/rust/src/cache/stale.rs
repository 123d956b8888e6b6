//! Values that have expired, and are left for loads that fail.
use super::builder::{CacheBuilder, MOST_AT_ONCE};
use super::desk::At;
use super::entry::Entry;
use super::expiry::{Moment, Spans};
use super::leaving::RemovalCause;
use super::part::Part;
use super::store::{PutEntry, Store};
use super::Cache;
use crate::ids::{Miss, Put};
use std::borrow::Borrow;
use std::hash::{BuildHasher, Hash};
use std::time::Duration;

impl<K, V, S> CacheBuilder<K, V, S> {
    /// How long a value that has expired still answers where its load fails: its caller has it then in place of the
    /// failure, and so have those who would share that. No other get finds it, and none does once its key was
    /// invalidated, put or changed. Until that time is over it has its place in the cache, if nothing needs that.
    ///
    /// By [`Request::fail`](crate::Request::fail), or where a request is dropped, those have it who wait. A load that
    /// panics goes on panicking.
    ///
    /// ```
    /// use nr::Cache;
    /// use std::time::Duration;
    ///
    /// let minute = Duration::from_secs(60);
    /// let cache: Cache<String, u64> =
    ///     Cache::builder().time_to_live(Duration::ZERO).stale_if_error(60 * minute).open()?;
    /// assert_eq!(cache.try_get_with("rate", || Ok::<_, &str>(7)), Ok(7));
    /// // It has expired, so it is queried, and the base is away.
    /// assert_eq!(cache.get("rate"), None);
    /// assert_eq!(cache.try_get_with("rate", || Err("no answer")), Ok(7));
    /// cache.invalidate("rate");
    /// assert!(cache.try_get_with("rate", || Err("no answer")).is_err());
    /// # Ok::<(), nr::Fault>(())
    /// ```
    pub fn stale_if_error(self, time: Duration) -> CacheBuilder<K, V, S> {
        self.spans(|spans| Spans { if_error: Some(time), ..spans })
    }
}

impl<K: Hash + Eq + 'static, V: Clone + 'static, S: BuildHasher + 'static> Cache<K, V, S> {
    /// What a load gave, or where it failed a clone of what is left of its key.
    pub(super) fn or_left<Q: Eq + ?Sized, E>(&self, at: At, key: &Q, gave: Result<V, E>) -> Result<V, E>
    where
        K: Borrow<Q>,
    {
        let part = &self.shared.parts()[at.part];
        gave.or_else(|why| {
            let left = part
                .expiry
                .leaves()
                .then(|| self.read_if(at, |entry| part.is_left(entry, key), |entry| entry.value.clone()));
            let value = left.flatten().ok_or(why)?;
            part.count(|counted| counted.stale += 1);
            Ok(value)
        })
    }
}

impl<K, V> Part<K, V> {
    /// Whether an entry is a key's, and answers where its load fails.
    pub fn is_left<Q: Eq + ?Sized>(&self, entry: &Entry<K, V>, key: &Q) -> bool
    where
        K: Borrow<Q>,
    {
        entry.key.borrow() == key && !self.expiry.is_gone(entry, self.expiry.now())
    }

    /// Takes what an id has where it has expired and is left.
    pub fn expire_left(&self, id: u64) {
        if self.expiry.leaves() {
            let now = self.expiry.now();
            self.change(|store| store.expire(id, now));
        }
    }
}

/// What a miss meets where its id has an entry.
pub(super) enum Met {
    /// The key's.
    Own,
    /// Another key's.
    Other,
    /// The key's, which has expired, and is left for a load that fails.
    Left,
    /// One that has expired, and has gone now.
    Gone,
}

impl<K, V> Store<K, V> {
    /// What a miss of a key meets.
    pub fn meet<Q: Eq + ?Sized>(&mut self, id: u64, key: &Q, now: Moment) -> Met
    where
        K: Borrow<Q>,
    {
        let expiry = self.expiry;
        let Some(entry) = self.find(id) else { return Met::Gone };
        let is_over = expiry.is_over(entry, now);
        let is_gone = is_over && expiry.is_gone(entry, now);
        let is_own = !is_gone && entry.key.borrow() == key;
        match (is_own, is_over) {
            (true, false) => Met::Own,
            (true, true) => Met::Left,
            (false, false) => Met::Other,
            (false, true) => {
                self.expire(id, now);
                Met::Gone
            }
        }
    }

    /// The number of a flight that is to begin beside an entry which is left, unless too many are under way. It is none of
    /// the store's, and [`Store::under_way`] is to be told of it.
    pub fn begin_beside_left(&mut self) -> Option<u64> {
        self.turns += 1;
        (self.under_way.count() < MOST_AT_ONCE as usize).then_some(!self.turns)
    }

    /// Ends it by an entry, in place of what is left where that is there still, or gives it back where it isn't held: as
    /// where the flight has ended since it was outdated.
    pub fn land_beside_left(&mut self, number: u64, entry: Box<Entry<K, V>>, now: Moment) -> PutEntry<K, V> {
        if !self.under_way.end(number, &self.end_by(&entry)) {
            return Err(entry);
        }
        let (id, expiry) = (entry.id, self.expiry);
        let Some(old) = self.place(id) else {
            // It has made room.
            return self.put_new(entry, |ids, place, times| match ids.begin(id) {
                Miss::Load(number) => ids.land(number, place, times),
                _ => Put::Own,
            });
        };
        let is_over = self.find(id).is_some_and(|old| expiry.is_over(old, now));
        if is_over {
            self.note(id, RemovalCause::Expired);
        }
        let put = self.swap(old, entry);
        self.counted.evictions += u64::from(is_over);
        put
    }
}
