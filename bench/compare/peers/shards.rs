//! A hash map in 64 parts, each under a lock of its own. A hole is no entry. The hash is one multiplication, so that it
//! isn't the hash that is measured.
use crate::{Kind, Map, Row, Rows};
use std::collections::hash_map::{Entry, HashMap};
use std::hash::{BuildHasherDefault, Hasher};
use std::sync::RwLock;

const SHARDS: usize = 64;

#[derive(Default)]
pub struct Multiplied(u64);

impl Hasher for Multiplied {
    fn finish(&self) -> u64 {
        self.0
    }

    fn write(&mut self, bytes: &[u8]) {
        bytes.iter().for_each(|byte| self.write_u32(u32::from(*byte)));
    }

    fn write_u32(&mut self, word: u32) {
        let word = (self.0 ^ u64::from(word)).wrapping_mul(0x9e37_79b9_7f4a_7c15);
        self.0 = word ^ word >> 32;
    }
}

// Asked, or the rows.
type Shard = HashMap<u32, Option<Vec<Row>>, BuildHasherDefault<Multiplied>>;

// On lines of the caches of its own.
#[repr(align(128))]
struct Apart(RwLock<Shard>);

pub struct Peer(Box<[Apart]>);

impl Peer {
    fn shard(&self, key: usize) -> &RwLock<Shard> {
        &self.0[key % SHARDS].0
    }
}

fn kind_of(entry: Option<&Option<Vec<Row>>>) -> Kind {
    match entry {
        None => Kind::Hole,
        Some(None) => Kind::Asked,
        Some(Some(_)) => Kind::Filled,
    }
}

impl Map for Peer {
    type Reads = ();
    type Writes = ();

    fn open(_keys: usize, _readers: usize) -> (Peer, ()) {
        (Peer((0..SHARDS).map(|_| Apart(RwLock::default())).collect()), ())
    }

    fn reads(&self) {}

    fn find(&self, _own: &mut (), key: usize, rows: &mut Rows) -> bool {
        match self.shard(key).read().unwrap().get(&(key as u32)) {
            Some(Some(set)) => {
                rows.show(set);
                true
            }
            _ => false,
        }
    }

    fn ask(&self, key: usize) -> Kind {
        let kind = self.kind(key);
        if kind != Kind::Hole {
            return kind;
        }
        match self.shard(key).write().unwrap().entry(key as u32) {
            Entry::Occupied(there) => kind_of(Some(there.get())),
            Entry::Vacant(room) => {
                room.insert(None);
                Kind::Hole
            }
        }
    }

    fn kind(&self, key: usize) -> Kind {
        kind_of(self.shard(key).read().unwrap().get(&(key as u32)))
    }

    fn copy(&self, _own: &mut (), key: usize, pile: &mut Vec<Row>) -> bool {
        match self.shard(key).read().unwrap().get(&(key as u32)) {
            Some(Some(set)) => {
                pile.extend_from_slice(set);
                true
            }
            _ => false,
        }
    }

    fn put(&self, _own: &mut (), key: usize, rows: &[Row]) {
        let mut shard = self.shard(key).write().unwrap();
        let set = shard.entry(key as u32).or_default().get_or_insert_default();
        set.clear();
        set.extend_from_slice(rows);
    }

    fn clear(&self, _own: &mut (), key: usize) {
        self.shard(key).write().unwrap().remove(&(key as u32));
    }
}
