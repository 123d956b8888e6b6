//! Caches whose readers load what they miss: the crate's own; dashmap with a lock a key, which keeps the keys in the order
//! in which they came; and `lru` in 64 parts, each under a mutex.

use crate::{Hash, Mix, Value};
use dashmap::DashMap;
use lru::LruCache;
use nr::CacheReader;
use std::collections::VecDeque;
use std::ffi::{c_char, c_void};
use std::hash::Hasher;
use std::sync::{Arc, Mutex, MutexGuard, OnceLock};

#[repr(C)]
pub struct Plan {
    keys: u64,
    resident: u64,
}

/// What cache.h says.
#[repr(C)]
pub struct Peer {
    name: *const c_char,
    open: unsafe extern "C" fn(&Plan) -> *mut c_void,
    reader: unsafe extern "C" fn(*mut c_void) -> *mut c_void,
    begin: unsafe extern "C" fn(*mut c_void, *mut c_void),
    end: unsafe extern "C" fn(*mut c_void, *mut c_void),
    find: unsafe extern "C" fn(*mut c_void, *mut c_void, u64) -> *const u64,
    take: Option<unsafe extern "C" fn()>,
    put: Option<unsafe extern "C" fn()>,
}

// It has constants alone.
unsafe impl Sync for Peer {}

extern "C" {
    fn load_value(key: u64, to: *mut Value);
}

fn loaded(key: u64) -> Value {
    let mut value = Value::of(0, 0);
    unsafe { load_value(key, &mut value) };
    value
}

trait Cache: Sized {
    type Reader;
    fn open(plan: &Plan) -> Self;
    fn reader(&self) -> Self::Reader;
    fn get(&self, reader: &mut Self::Reader, key: u64) -> Value;
}

/// A reader and the room for what it gets, apart from the others' lines.
#[repr(align(256))]
struct Seat<R> {
    reader: R,
    got: Value,
}

unsafe extern "C" fn open<C: Cache>(plan: &Plan) -> *mut c_void {
    Box::into_raw(Box::new(C::open(plan))).cast()
}

unsafe extern "C" fn reader<C: Cache>(cache: *mut c_void) -> *mut c_void {
    let cache: &C = &*cache.cast();
    Box::into_raw(Box::new(Seat {
        reader: cache.reader(),
        got: Value::of(0, 0),
    }))
    .cast()
}

unsafe extern "C" fn find<C: Cache>(cache: *mut c_void, seat: *mut c_void, key: u64) -> *const u64 {
    let cache: &C = &*cache.cast();
    let seat: &mut Seat<C::Reader> = &mut *seat.cast();
    seat.got = cache.get(&mut seat.reader, key);
    seat.got.0.as_ptr()
}

unsafe extern "C" fn no_thread(_: *mut c_void, _: *mut c_void) {}

const fn peer<C: Cache>(name: *const c_char) -> Peer {
    Peer {
        name,
        open: open::<C>,
        reader: reader::<C>,
        begin: no_thread,
        end: no_thread,
        find: find::<C>,
        take: None,
        put: None,
    }
}

impl Cache for nr::Cache<u64, Value, Hash> {
    type Reader = CacheReader<u64, Value, Hash>;

    fn open(plan: &Plan) -> Self {
        let builder = nr::Cache::builder()
            .capacity(plan.resident as usize)
            .hasher(Hash::default());
        builder.open().expect("there is memory")
    }

    fn reader(&self) -> Self::Reader {
        nr::Cache::reader(self).expect("there is a reader for each thread")
    }

    fn get(&self, reader: &mut Self::Reader, key: u64) -> Value {
        *reader.get_with(&key, || loaded(key))
    }
}

/// What a key has, and the lock for its load.
type Cell = Arc<OnceLock<Value>>;

fn locked<T>(mutex: &Mutex<T>) -> MutexGuard<'_, T> {
    mutex.lock().expect("no thread has panicked")
}

struct Cells {
    cells: DashMap<u64, Cell, Hash>,
    /// Of the values that are there, oldest first.
    order: Mutex<VecDeque<u64>>,
    resident: usize,
}

impl Cells {
    fn hold(&self, key: u64) {
        let mut order = locked(&self.order);
        order.push_back(key);
        if order.len() > self.resident {
            let oldest = order.pop_front().expect("it has more than none");
            drop(order);
            self.cells.remove(&oldest);
        }
    }
}

impl Cache for Cells {
    type Reader = ();

    fn open(plan: &Plan) -> Self {
        let resident = plan.resident as usize;
        let cells = DashMap::with_capacity_and_hasher(resident, Hash::default());
        Cells {
            cells,
            order: Mutex::default(),
            resident,
        }
    }

    fn reader(&self) {}

    fn get(&self, _: &mut (), key: u64) -> Value {
        if let Some(value) = self.cells.get(&key).and_then(|cell| cell.get().copied()) {
            return value;
        }
        let cell = Arc::clone(&self.cells.entry(key).or_default());
        let mut loads = false;
        let value = *cell.get_or_init(|| {
            loads = true;
            loaded(key)
        });
        if loads {
            self.hold(key);
        }
        value
    }
}

struct Parts(Vec<Part>);

/// Apart from the others' lines.
#[repr(align(128))]
struct Part(Mutex<LruCache<u64, Cell, Hash>>);

const PARTS: usize = 64;

/// A value that is there, or the cell that it comes to.
fn held(part: &Part, key: u64) -> Result<Value, Cell> {
    let mut part = locked(&part.0);
    if let Some(cell) = part.get(&key) {
        return cell.get().copied().ok_or_else(|| Arc::clone(cell));
    }
    let cell = Cell::default();
    part.put(key, Arc::clone(&cell));
    Err(cell)
}

impl Cache for Parts {
    type Reader = ();

    fn open(plan: &Plan) -> Self {
        let part = |_| {
            Part(Mutex::new(LruCache::with_hasher(
                plan.resident as usize / PARTS,
                Hash::default(),
            )))
        };
        Parts((0..PARTS).map(part).collect())
    }

    fn reader(&self) {}

    fn get(&self, _: &mut (), key: u64) -> Value {
        let mut hash = Mix::default();
        hash.write_u64(key);
        let part = &self.0[(hash.finish() >> 40) as usize % PARTS];
        held(part, key).unwrap_or_else(|cell| *cell.get_or_init(|| loaded(key)))
    }
}

#[no_mangle]
pub static rust_cache: Peer = peer::<nr::Cache<u64, Value, Hash>>(c"this cache".as_ptr());
#[no_mangle]
pub static dashmap_cells: Peer = peer::<Cells>(c"dashmap, a lock a key".as_ptr());
#[no_mangle]
pub static lru_parts: Peer = peer::<Parts>(c"64 locked LRUs".as_ptr());
