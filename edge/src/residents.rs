//! The keys that an edge holds: what they have, the cache that sessions read, and clocks that tell which key goes.
use crate::changes::{Changes, RowId};
use crate::configuration::Room;
use crate::content::{Content, Lack};
use crate::key::Key;
use crate::shared::Shared;
use crate::{parts, stats::Count, value::Value};
use std::collections::{HashMap, HashSet, VecDeque};
use std::sync::{atomic::Ordering::Relaxed, Arc};

struct Resident {
    view: usize,
    content: Content,
    value: Arc<Value>,
    size: usize,
}

/// The keys of a view, first the one that the clock's hand comes to next.
#[derive(Default)]
struct Clock {
    keys: VecDeque<Key>,
    size: u64,
    limit: u64,
}

pub struct Residents<'a> {
    shared: &'a Shared,
    held: HashMap<Key, Resident>,
    /// The keys that have a row. While one is ahead of the stream there may be several.
    of_rows: HashMap<RowId, Vec<Key>>,
    clocks: Vec<Clock>,
    /// Of all views.
    size: u64,
}

/// In bytes, about, with what the allocator takes: what a key takes beside its texts, here and in the cache.
const OF_KEY: usize = 640;

impl Residents<'_> {
    pub fn new(shared: &Shared) -> Residents<'_> {
        let most = shared.configuration.cache.limit_bytes;
        let clock = |limit: Option<u64>| Clock { limit: limit.unwrap_or(most).min(most), ..Clock::default() };
        let clocks = shared.configuration.views.iter().map(|view| clock(view.limit_bytes)).collect();
        Residents { shared, held: HashMap::new(), of_rows: HashMap::new(), clocks, size: 0 }
    }

    /// Puts what a key has in place of what is held of it, unless it is too large: what clients are to be told.
    pub fn fill(&mut self, view: usize, key: &Key, content: Content) -> Arc<Value> {
        let value = Arc::new(Value::of(&content, self.shared.encoding(view)));
        let size = size(key, &content, &value);
        if size as u64 > self.clocks[view].limit {
            self.shared.work.up(Count::TooLarge);
            self.evict(key);
        } else {
            self.shared.work.up(Count::Fills);
            self.put(key, Resident { view, content, value: Arc::clone(&value), size });
        }
        value
    }

    fn put(&mut self, key: &Key, resident: Resident) {
        let (view, size) = (resident.view, resident.size as u64);
        self.shared.cache.insert(Arc::clone(key), Arc::clone(&resident.value));
        let before = self.held.remove(key);
        let had = |id: &&RowId| before.as_ref().is_some_and(|before| before.content.has(id));
        for id in resident.content.ids().filter(|id| !had(id)) {
            self.of_rows.entry(Arc::clone(id)).or_default().push(Arc::clone(key));
        }
        if let Some(before) = &before {
            self.forget_rows(key, before.content.ids().filter(|id| !resident.content.has(id)));
        }
        self.held.insert(Arc::clone(key), resident);
        let was = match before {
            Some(before) => before.size as u64,
            None => {
                self.clocks[view].keys.push_back(Arc::clone(key));
                0
            }
        };
        for sum in [&mut self.clocks[view].size, &mut self.size] {
            *sum = *sum + size - was;
        }
        self.keep_limits(view);
        self.tell();
    }

    /// The value of a key that the cache may have lost.
    pub fn value(&self, key: &Key) -> Option<Arc<Value>> {
        let value = Arc::clone(&self.held.get(key)?.value);
        self.shared.cache.insert(Arc::clone(key), Arc::clone(&value));
        Some(value)
    }

    fn forget_rows<'r>(&mut self, key: &Key, ids: impl Iterator<Item = &'r RowId>) {
        for id in ids {
            let Some(keys) = self.of_rows.get_mut(id) else { continue };
            keys.retain(|other| other != key);
            if keys.is_empty() {
                self.of_rows.remove(id);
            }
        }
    }

    #[cfg(test)]
    pub fn rows(&self) -> usize {
        self.of_rows.len()
    }

    /// The keys that a transaction may change.
    pub fn changed_by(&self, changes: &Changes) -> HashSet<Key> {
        let with_rows = changes.rows.keys().filter_map(|id| self.of_rows.get(id)).flatten();
        changes.of_keys.keys().filter(|key| self.held.contains_key(*key)).chain(with_rows).cloned().collect()
    }

    /// Applies what a transaction changes of a key. One that isn't known then goes.
    pub fn update(&mut self, key: &Key, changes: &Changes) {
        let Some(resident) = self.held.get(key) else { return };
        let content = match resident.content.changed(key, changes) {
            Ok(content) => content,
            Err(Lack::Untold) => {
                self.shared.work.up(Count::Untold);
                return self.evict(key);
            }
            Err(Lack::Disagreement) => {
                self.shared.work.up(Count::Disagreements);
                eprintln!("edge: the rows of {key} and its changes disagree, and it is no longer held");
                return self.evict(key);
            }
        };
        let value = Arc::new(Value::of(&content, self.shared.encoding(resident.view)));
        if resident.value.was_read() {
            value.is_read();
        }
        let (view, size) = (resident.view, size(key, &content, &value));
        self.put(key, Resident { view, content, value, size });
        self.shared.work.up(Count::Updates);
    }

    pub fn empty(&mut self) {
        if parts::EMPTYING {
            self.shared.cache.invalidate_all();
            self.held.iter().for_each(|_| self.shared.work.up(Count::Evictions));
            self.held.clear();
            self.of_rows.clear();
            self.clocks.iter_mut().for_each(|clock| *clock = Clock { limit: clock.limit, ..Clock::default() });
            self.size = 0;
        }
        self.tell();
    }

    fn keep_limits(&mut self, view: usize) {
        while self.clocks[view].size > self.clocks[view].limit && self.evict_of(view) {}
        let Room { keys, limit_bytes } = self.shared.configuration.cache;
        while self.size > limit_bytes || self.held.len() > keys as usize {
            let largest = (0..self.clocks.len()).max_by_key(|view| self.clocks[*view].size);
            if !largest.is_some_and(|view| self.evict_of(view)) {
                return;
            }
        }
    }

    /// The next key of a view that was not read since the hand passed it. Whether there was one.
    fn evict_of(&mut self, view: usize) -> bool {
        while let Some(key) = self.clocks[view].keys.pop_front() {
            if self.held.get(&key).is_some_and(|it| it.value.was_read()) {
                self.clocks[view].keys.push_back(key);
            } else {
                self.clocks[view].keys.push_front(Arc::clone(&key));
                self.evict(&key);
                return true;
            }
        }
        false
    }

    fn evict(&mut self, key: &Key) {
        let Some(resident) = self.held.remove(key) else { return };
        self.shared.cache.invalidate(key);
        self.forget_rows(key, resident.content.ids());
        let clock = &mut self.clocks[resident.view];
        clock.size -= resident.size as u64;
        self.size -= resident.size as u64;
        if clock.keys.front() == Some(key) {
            clock.keys.pop_front();
        } else {
            clock.keys.retain(|other| other != key);
        }
        self.shared.work.up(Count::Evictions);
        self.tell();
    }

    fn tell(&self) {
        self.shared.now.keys.store(self.held.len() as u64, Relaxed);
        self.shared.now.bytes.store(self.size, Relaxed);
    }
}

fn size(key: &str, content: &Content, value: &Value) -> usize {
    content.size() + OF_KEY + 2 * key.len() + value.size()
}
