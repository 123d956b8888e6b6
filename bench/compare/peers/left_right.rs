//! Two copies of the whole map: readers read one, each with a count of its own that is odd while it reads; the writer
//! changes the other and turns them over at each call. Before it changes a copy it waits for the readers that it found
//! reading when that copy was turned away from, and first makes the change that the copy lacks.
//! Requests don't go through the copies: a flag for each key has them.
use crate::{Kind, Map, Row, Rows};
use std::cell::UnsafeCell;
use std::hint::spin_loop;
use std::sync::atomic::{fence, AtomicU64, AtomicU8, AtomicUsize, Ordering::*};
use std::thread::yield_now;

#[repr(align(128))]
struct Apart<T>(T);

type Copy = Vec<Option<Vec<Row>>>;

pub struct Peer {
    copies: [UnsafeCell<Copy>; 2],
    shown: Apart<AtomicUsize>,
    reading: Box<[Apart<AtomicU64>]>,
    readers: AtomicUsize,
    // 0 for a hole, 1 for a request, 2 for a filled key.
    kinds: Box<[AtomicU8]>,
}

unsafe impl Sync for Peer {}
unsafe impl Send for Peer {}

pub struct Writes {
    // The key that the copy which isn't shown lacks the last change of.
    late: Option<usize>,
    // The readers' counts at the last turn.
    seen: Vec<u64>,
}

fn set(copy: &mut Copy, key: usize, rows: Option<&[Row]>) {
    match (&mut copy[key], rows) {
        (Some(there), Some(rows)) => {
            there.clear();
            there.extend_from_slice(rows);
        }
        (place, rows) => *place = rows.map(<[Row]>::to_vec),
    }
}

impl Peer {
    // Waits until no reader is left that was reading this copy at the last turn.
    fn wait(&self, seen: &[u64]) {
        for (count, was) in self.reading.iter().zip(seen) {
            let mut tries = 0;
            while was % 2 == 1 && count.0.load(Acquire) == *was {
                tries += 1;
                if tries % 64 == 0 {
                    yield_now();
                }
                spin_loop();
            }
        }
    }

    fn change(&self, own: &mut Writes, key: usize, rows: Option<&[Row]>) {
        let shown = self.shown.0.load(Relaxed);
        self.wait(&own.seen);
        // SAFETY: readers read the shown copy alone, and none is left in the other; there is one writer.
        let (read, hidden) = unsafe { (&*self.copies[shown].get(), &mut *self.copies[1 - shown].get()) };
        if let Some(late) = own.late.replace(key) {
            set(hidden, late, read[late].as_deref());
        }
        set(hidden, key, rows);
        self.shown.0.store(1 - shown, Release);
        fence(SeqCst);
        own.seen.clear();
        own.seen.extend(self.reading.iter().map(|count| count.0.load(Acquire)));
    }
}

impl Map for Peer {
    // The place of its count.
    type Reads = usize;
    type Writes = Writes;

    fn open(keys: usize, readers: usize) -> (Peer, Writes) {
        let map = Peer {
            copies: [UnsafeCell::new(vec![None; keys]), UnsafeCell::new(vec![None; keys])],
            shown: Apart(AtomicUsize::new(0)),
            reading: (0..readers).map(|_| Apart(AtomicU64::new(0))).collect(),
            readers: AtomicUsize::new(0),
            kinds: (0..keys).map(|_| AtomicU8::new(0)).collect(),
        };
        (map, Writes { late: None, seen: Vec::with_capacity(readers) })
    }

    fn reads(&self) -> usize {
        self.readers.fetch_add(1, Relaxed)
    }

    fn find(&self, own: &mut usize, key: usize, rows: &mut Rows) -> bool {
        let count = &self.reading[*own].0;
        let before = count.load(Relaxed);
        count.store(before + 1, Relaxed);
        fence(SeqCst);
        // SAFETY: the count is odd, so the writer leaves this copy alone.
        let copy = unsafe { &*self.copies[self.shown.0.load(Acquire)].get() };
        let set = copy[key].as_deref();
        if let Some(set) = set {
            rows.show(set);
        }
        count.store(before + 2, Release);
        set.is_some()
    }

    fn ask(&self, key: usize) -> Kind {
        match self.kinds[key].compare_exchange(0, 1, SeqCst, SeqCst) {
            Ok(_) => Kind::Hole,
            Err(1) => Kind::Asked,
            Err(_) => Kind::Filled,
        }
    }

    fn kind(&self, key: usize) -> Kind {
        [Kind::Hole, Kind::Asked, Kind::Filled][self.kinds[key].load(SeqCst) as usize]
    }

    fn copy(&self, _own: &mut Writes, key: usize, pile: &mut Vec<Row>) -> bool {
        // SAFETY: nobody changes the shown copy.
        match unsafe { &(&*self.copies[self.shown.0.load(Relaxed)].get())[key] } {
            Some(set) => {
                pile.extend_from_slice(set);
                true
            }
            None => false,
        }
    }

    fn put(&self, own: &mut Writes, key: usize, rows: &[Row]) {
        self.change(own, key, Some(rows));
        self.kinds[key].store(2, SeqCst);
    }

    fn clear(&self, own: &mut Writes, key: usize) {
        self.change(own, key, None);
        self.kinds[key].store(0, SeqCst);
    }
}
