//! Entries that a caller looks at without a lock and without a reader.
use super::entry::Entry;
use super::part::Part;
use super::store::{Place, Store};
use std::borrow::Borrow;
use std::ops::Deref;

/// The entries of a part that callers keep, which are few. Each lies where it lies until the last of them lets it go.
pub(super) struct KeptEntries<K, V> {
    all: Vec<KeptEntry<K, V>>,
}

struct KeptEntry<K, V> {
    place: Place<K, V>,
    /// How many keep it.
    callers: usize,
    has_come_out: bool,
}

impl<K, V> KeptEntries<K, V> {
    pub fn new() -> KeptEntries<K, V> {
        KeptEntries { all: Vec::new() }
    }

    pub fn keep(&mut self, place: Place<K, V>) {
        match self.find(place) {
            Some(kept) => kept.callers += 1,
            None => self.all.push(KeptEntry { place, callers: 1, has_come_out: false }),
        }
    }

    /// Notes that an entry has come out: whether somebody keeps it.
    pub fn comes_out(&mut self, place: Place<K, V>) -> bool {
        self.find(place).map(|kept| kept.has_come_out = true).is_some()
    }

    /// One caller lets an entry go: whether it has come out, and nobody keeps it any more.
    pub fn let_go(&mut self, place: Place<K, V>) -> bool {
        let Some(at) = self.all.iter().position(|kept| kept.place == place) else { return false };
        self.all[at].callers -= 1;
        self.all[at].callers == 0 && self.all.swap_remove(at).has_come_out
    }

    fn find(&mut self, place: Place<K, V>) -> Option<&mut KeptEntry<K, V>> {
        self.all.iter_mut().find(|kept| kept.place == place)
    }
}

/// An entry that a caller keeps: until this is dropped it is there as it was, whatever happens to its key.
pub(super) struct Kept<'a, K, V> {
    part: &'a Part<K, V>,
    place: Place<K, V>,
}

impl<K, V> Kept<'_, K, V> {
    /// Lets it go as it calls the store with its place.
    pub fn end_by<R>(self, call: impl FnOnce(&mut Store<K, V>, Place<K, V>) -> R) -> R {
        let Kept { part, place } = self;
        std::mem::forget(self);
        part.change(|store| {
            let gave = call(store, place);
            store.let_go(place);
            gave
        })
    }

    /// Puts an entry in place of it, where that is what its key has still: whether it was.
    pub fn swap(self, entry: Box<Entry<K, V>>) -> bool {
        let refused = self.end_by(|store, place| store.replace(place, entry).err());
        refused.is_none()
    }
}

impl<K, V> Drop for Kept<'_, K, V> {
    fn drop(&mut self) {
        self.part.change(|store| store.let_go(self.place));
    }
}

impl<K, V> Deref for Kept<'_, K, V> {
    type Target = Entry<K, V>;

    fn deref(&self) -> &Entry<K, V> {
        // SAFETY: an entry that is kept isn't freed.
        unsafe { self.place.as_ref() }
    }
}

impl<K, V> Part<K, V> {
    /// Keeps the entry of a key, where it has one that hasn't expired. `before` comes first, under the same lock.
    pub fn keep<Q: Eq + ?Sized>(
        &self,
        id: u64,
        key: &Q,
        before: impl FnOnce(&mut Store<K, V>),
    ) -> Option<Kept<'_, K, V>>
    where
        K: Borrow<Q>,
    {
        let (now, mut kept) = (self.expiry.now(), None);
        // Where a drop panics that follows, what was kept is let go.
        self.change(|store| {
            before(store);
            let place = store.of_key(id, key, now);
            kept = place.map(|place| {
                store.keep(place);
                Kept { part: self, place }
            });
        });
        kept
    }
}
