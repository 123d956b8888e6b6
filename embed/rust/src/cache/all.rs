//! Calls that go through all entries.
use super::desk::At;
use super::entry::Entry;
use super::own::with_desk;
use super::part::Part;
use super::seats::Seat;
use super::Cache;
use crate::drops::with_each;
use std::hash::{BuildHasher, Hash};

/// An entry that sat there as its part was asked.
#[derive(Clone, Copy)]
pub(super) struct Seated {
    pub id: u64,
    pub seat: Seat,
}

impl Seated {
    /// Whether it is that entry, and hasn't expired.
    fn is<K, V>(self, part: &Part<K, V>, entry: &Entry<K, V>) -> bool {
        entry.seat == self.seat && !part.expiry.is_over(entry, part.expiry.now())
    }

    /// Whether it is that entry, and hasn't expired, or is left for a load that fails.
    fn is_or_is_left<K, V>(self, part: &Part<K, V>, entry: &Entry<K, V>) -> bool {
        entry.seat == self.seat && !part.expiry.is_gone(entry, part.expiry.now())
    }
}

/// The entries of a few seats of a part.
struct Few {
    part: usize,
    seated: Vec<Seated>,
}

/// None is a get: nothing is counted, and no time to idle begins anew. But a value that is looked at without a lock
/// counts as found where room is made.
impl<K: Hash + Eq + Clone + 'static, V: Clone + 'static, S: BuildHasher + 'static> Cache<K, V, S> {
    /// Clones of the keys and values that it holds, in any order. An entry that is there all the while comes once. One
    /// that is put or goes meanwhile may come or not: so a key whose value is put anew may come twice, or not at all.
    /// Others go on meanwhile: it asks for 64 entries at a time under their part's lock, and looks at each without a
    /// lock, or, in a thread for which no reader is free, under the lock, where `K::clone` and `V::clone` run then.
    pub fn iter(&self) -> impl Iterator<Item = (K, V)> + '_ {
        let all = self.few_by_few().flat_map(|few| few.seated.into_iter().map(move |seated| (few.part, seated)));
        all.filter_map(|(part, seated)| {
            let at = At { id: seated.id, part };
            let is_it = |entry: &Entry<K, V>| seated.is(&self.shared.parts()[part], entry);
            self.read_if(at, is_it, |entry| (entry.key.clone(), entry.value.clone()))
        })
    }

    /// Takes each entry of which the predicate holds, as [`Cache::invalidate`] does one: how many. It is asked of those
    /// that [`Cache::iter`] gives, and of what has expired and is left
    /// ([`CacheBuilder::stale_if_error`](crate::CacheBuilder::stale_if_error)). No load that began before this call will be held, since its value can't be asked of.
    /// No lock is held while the predicate runs, so it may call the cache; where no reader is free, it is asked of
    /// clones, which are made under the lock. Where it panics, or the drop of a value, that goes on at the end: the
    /// entries next to that one, 64 at most, may be left then.
    pub fn invalidate_entries_if(&self, mut predicate: impl FnMut(&K, &V) -> bool) -> usize {
        with_each(self.shared.parts(), Part::outdate_all);
        let mut taken = 0;
        with_each(self.few_by_few(), |mut few| {
            few.seated.retain(|seated| self.holds_of(few.part, *seated, &mut predicate));
            taken += self.shared.parts()[few.part].invalidate_seated(&few.seated);
        });
        taken
    }

    /// The entries of each part, as it has them when its turn comes.
    fn few_by_few(&self) -> impl Iterator<Item = Few> + '_ {
        self.shared.parts().iter().zip(0..).flat_map(|(part, number)| {
            let few = move |first| Few { part: number, seated: part.seated(first) };
            part.firsts().map(few)
        })
    }

    /// Whether a predicate holds of an entry, which is there still.
    fn holds_of(&self, part: usize, seated: Seated, predicate: &mut impl FnMut(&K, &V) -> bool) -> bool {
        let (at, part) = (At { id: seated.id, part }, &self.shared.parts()[part]);
        let is_it = |entry: &Entry<K, V>| seated.is_or_is_left(part, entry);
        let by_a_reader = with_desk(&self.shared, |desk| {
            let holds = desk?.read_if(at, is_it, |entry| predicate(&entry.key, &entry.value));
            Some(holds == Some(true))
        });
        by_a_reader.unwrap_or_else(|| {
            let cloned = part.read_if(at.id, is_it, |entry| (entry.key.clone(), entry.value.clone()));
            cloned.is_some_and(|(key, value)| predicate(&key, &value))
        })
    }
}
