//! What the statement that filled a key saw, until the stream has passed it.
use super::lsn::{Lsn, Xid};
use super::{parts, snapshot::Seen};
use std::collections::{BTreeSet, HashMap};
use std::{hash::Hash, sync::Arc};

pub struct Fresh<K> {
    by_key: HashMap<K, Arc<Seen>>,
    /// The same keys, first the ones that the stream passes first.
    by_place: BTreeSet<(Lsn, K)>,
}

impl<K> Default for Fresh<K> {
    fn default() -> Fresh<K> {
        Fresh { by_key: HashMap::new(), by_place: BTreeSet::new() }
    }
}

impl<K: Hash + Ord + Clone> Fresh<K> {
    pub fn filled(&mut self, key: &K, seen: &Arc<Seen>) {
        self.forget(key);
        self.by_key.insert(key.clone(), Arc::clone(seen));
        self.by_place.insert((seen.place, key.clone()));
    }

    /// Whether the rows that filled a key had a transaction's changes, so that they are not to be applied again.
    pub fn has(&self, key: &K, xid: Xid) -> bool {
        parts::SKIP && self.by_key.get(key).is_some_and(|seen| seen.snapshot.sees(xid))
    }

    /// The stream has brought all that was committed before a place.
    pub fn passed(&mut self, place: Lsn) {
        while self.by_place.first().is_some_and(|(last, _)| *last <= place) {
            if let Some((_, key)) = self.by_place.pop_first() {
                self.by_key.remove(&key);
            }
        }
    }

    fn forget(&mut self, key: &K) {
        if let Some(seen) = self.by_key.remove(key) {
            self.by_place.remove(&(seen.place, key.clone()));
        }
    }
}
