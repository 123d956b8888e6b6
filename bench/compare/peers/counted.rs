//! A word for each key with the place of its set and a count of those who took it. A reader adds one to take
//! the set and one to the set's own count to leave it; the writer swaps another set in, and the last to leave
//! frees the old one.
use crate::{Kind, Map, Row, Rows};
use std::ptr::null_mut;
use std::sync::atomic::{AtomicU64, Ordering::SeqCst};

const TAKE: u64 = 1 << 48;
const ASKED: u64 = 1;
const PLACE: u64 = TAKE - 2;
// Of a set's own count: how many left it, and, once it is swapped out, how many took it, modulo 2^16.
const TAKEN: u32 = 40;
const OUT: u64 = 1 << 62;

struct Set {
    left: AtomicU64,
    rows: Box<[Row]>,
}

pub struct Peer(Box<[AtomicU64]>);

fn set_of(word: u64) -> *mut Set {
    if word & PLACE == 0 { null_mut() } else { (word & PLACE) as *mut Set }
}

fn all_left(left: u64) -> bool {
    left & OUT != 0 && left as u16 == (left >> TAKEN) as u16
}

impl Peer {
    // Puts a word in; frees the set that it stood for, where all have left it.
    fn swap(&self, key: usize, word: u64) {
        let old = self.0[key].swap(word, SeqCst);
        let set = set_of(old);
        if set.is_null() {
            return;
        }
        let out = OUT | (old >> 48) << TAKEN;
        // SAFETY: the thread that finds that all have left is the last to use the set.
        unsafe {
            if all_left((*set).left.fetch_add(out, SeqCst) + out) {
                drop(Box::from_raw(set));
            }
        }
    }
}

impl Map for Peer {
    type Reads = ();
    type Writes = ();

    fn open(keys: usize, _readers: usize) -> (Peer, ()) {
        (Peer((0..keys).map(|_| AtomicU64::new(0)).collect()), ())
    }

    fn reads(&self) {}

    fn find(&self, _own: &mut (), key: usize, rows: &mut Rows) -> bool {
        let set = set_of(self.0[key].fetch_add(TAKE, SeqCst));
        if set.is_null() {
            return false;
        }
        // SAFETY: it was taken, so nobody frees it before this one left.
        unsafe {
            rows.show(&(*set).rows);
            if all_left((*set).left.fetch_add(1, SeqCst) + 1) {
                drop(Box::from_raw(set));
            }
        }
        true
    }

    fn ask(&self, key: usize) -> Kind {
        let before = self.0[key].fetch_or(ASKED, SeqCst);
        if before & PLACE != 0 {
            Kind::Filled
        } else if before & ASKED != 0 {
            Kind::Asked
        } else {
            Kind::Hole
        }
    }

    fn kind(&self, key: usize) -> Kind {
        let word = self.0[key].load(SeqCst);
        if word & PLACE != 0 {
            Kind::Filled
        } else if word & ASKED != 0 {
            Kind::Asked
        } else {
            Kind::Hole
        }
    }

    fn copy(&self, _own: &mut (), key: usize, pile: &mut Vec<Row>) -> bool {
        let set = set_of(self.0[key].load(SeqCst));
        if set.is_null() {
            return false;
        }
        // SAFETY: only the writer swaps sets out.
        pile.extend_from_slice(unsafe { &(*set).rows });
        true
    }

    fn put(&self, _own: &mut (), key: usize, rows: &[Row]) {
        let set = Box::new(Set { left: AtomicU64::new(0), rows: rows.into() });
        self.swap(key, Box::into_raw(set) as u64);
    }

    fn clear(&self, _own: &mut (), key: usize) {
        self.swap(key, 0);
    }
}

impl Drop for Peer {
    fn drop(&mut self) {
        (0..self.0.len()).for_each(|key| self.swap(key, 0));
    }
}
