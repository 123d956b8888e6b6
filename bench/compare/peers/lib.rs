//! Maps with locks or with copies, behind the functions of `include/nr.h`, to be measured beside the map of this
//! repository. They have what the bench calls and no more: no pins, no cancels, no numbers but the first one.
//! One of them is built at a time, by `--cfg rwlocks`, `shards`, `left_right` or `counted`.
#![allow(clippy::missing_safety_doc, unexpected_cfgs)]
use std::slice;
use std::sync::Arc;

#[cfg(counted)]
#[path = "counted.rs"]
mod peer;
#[cfg(left_right)]
#[path = "left_right.rs"]
mod peer;
#[cfg(rwlocks)]
#[path = "rwlocks.rs"]
mod peer;
#[cfg(shards)]
#[path = "shards.rs"]
mod peer;

use peer::Peer;

#[repr(C)]
#[derive(Clone, Copy, PartialEq, Eq, PartialOrd, Ord)]
pub struct Row {
    a: u64,
    b: u64,
}

#[repr(C)]
pub struct Rows {
    count: u64,
    row: [Row; 255],
}

impl Rows {
    #[inline(always)]
    fn show(&mut self, rows: &[Row]) {
        self.row[..rows.len()].copy_from_slice(rows);
        self.count = rows.len() as u64;
    }
}

#[repr(C)]
pub struct Delta {
    row: Row,
    plus: bool,
}

#[repr(C)]
pub struct Shape {
    keys: u32,
    slots: u32,
    readers: u32,
    rows: u32,
    first_count: u64,
    first_number: u64,
}

/// What a key is, to a request and to a fill.
#[derive(Clone, Copy, PartialEq, Eq)]
pub enum Kind {
    Hole,
    Asked,
    Filled,
}

/// A map from keys to rows that one thread writes and others read.
pub trait Map: Sized {
    /// What a reader has of its own.
    type Reads;
    /// What the writer has of its own.
    type Writes;
    fn open(keys: usize, readers: usize) -> (Self, Self::Writes);
    fn reads(&self) -> Self::Reads;
    /// Copies a key's rows out; whether it is filled.
    fn find(&self, own: &mut Self::Reads, key: usize, rows: &mut Rows) -> bool;
    /// Requests a key; what it was before.
    fn ask(&self, key: usize) -> Kind;
    fn kind(&self, key: usize) -> Kind;
    /// Copies a filled key's rows to the pile; whether it is filled.
    fn copy(&self, own: &mut Self::Writes, key: usize, pile: &mut Vec<Row>) -> bool;
    fn put(&self, own: &mut Self::Writes, key: usize, rows: &[Row]);
    fn clear(&self, own: &mut Self::Writes, key: usize);
}

pub struct Reader {
    map: Arc<Peer>,
    own: <Peer as Map>::Reads,
}

pub struct Writer {
    map: Arc<Peer>,
    own: <Peer as Map>::Writes,
    rows: usize,
    first_number: u64,
    pile: Vec<Row>,
}

#[repr(C)]
pub struct Handle<T>(*mut T);

#[no_mangle]
pub unsafe extern "C" fn nr_open(shape: &Shape, writer: &mut Handle<Writer>) -> u32 {
    let (map, own) = Peer::open(shape.keys as usize, shape.readers as usize);
    let (rows, first_number) = (shape.rows as usize, shape.first_number);
    let pile = Vec::with_capacity(319);
    writer.0 = Box::into_raw(Box::new(Writer { map: Arc::new(map), own, rows, first_number, pile }));
    5
}

#[no_mangle]
pub unsafe extern "C" fn nr_open_reader(writer: &Handle<Writer>, reader: &mut Handle<Reader>) -> u32 {
    let map = (*writer.0).map.clone();
    let own = map.reads();
    reader.0 = Box::into_raw(Box::new(Reader { map, own }));
    5
}

#[no_mangle]
pub unsafe extern "C" fn nr_close_reader(reader: &mut Handle<Reader>) {
    drop(Box::from_raw(std::mem::replace(&mut reader.0, std::ptr::null_mut())));
}

#[no_mangle]
pub unsafe extern "C" fn nr_close_writer(writer: &mut Handle<Writer>) {
    drop(Box::from_raw(std::mem::replace(&mut writer.0, std::ptr::null_mut())));
}

#[no_mangle]
pub unsafe extern "C" fn nr_find(reader: &mut Handle<Reader>, key: u32, rows: &mut Rows) -> u32 {
    let Reader { map, own } = &mut *reader.0;
    u32::from(!map.find(own, key as usize, rows))
}

#[no_mangle]
pub unsafe extern "C" fn nr_ask(reader: &mut Handle<Reader>, key: u32, number: &mut u64) -> u32 {
    match (*reader.0).map.ask(key as usize) {
        Kind::Filled => 4,
        Kind::Asked => 3,
        Kind::Hole => {
            *number = 0;
            2
        }
    }
}

#[no_mangle]
pub unsafe extern "C" fn nr_fill(
    writer: &mut Handle<Writer>,
    key: u32,
    number: u64,
    rows: *const Row,
    n: usize,
) -> u32 {
    let Writer { map, own, rows: most, first_number, .. } = &mut *writer.0;
    let rows = slice::from_raw_parts(rows, n);
    if n > *most {
        return 11;
    }
    if !rows.is_sorted() {
        return 19;
    }
    match map.kind(key as usize) {
        Kind::Hole => 6,
        Kind::Filled => 7,
        Kind::Asked if number != *first_number => 8,
        Kind::Asked => {
            map.put(own, key as usize, rows);
            5
        }
    }
}

// Applies signed rows to sorted ones; false where a row that is taken away isn't there.
fn applied(pile: &mut Vec<Row>, deltas: &[Delta]) -> bool {
    for delta in deltas.iter().filter(|delta| delta.plus) {
        let place = pile.partition_point(|row| *row <= delta.row);
        pile.insert(place, delta.row);
    }
    for delta in deltas.iter().filter(|delta| !delta.plus) {
        let place = pile.partition_point(|row| *row < delta.row);
        if pile.get(place) != Some(&delta.row) {
            return false;
        }
        pile.remove(place);
    }
    true
}

#[no_mangle]
pub unsafe extern "C" fn nr_update(writer: &mut Handle<Writer>, key: u32, deltas: *const Delta, n: usize) -> u32 {
    let Writer { map, own, rows: most, pile, .. } = &mut *writer.0;
    let deltas = slice::from_raw_parts(deltas, n);
    if n == 0 || n > 64 {
        return 18;
    }
    pile.clear();
    if !map.copy(own, key as usize, pile) {
        return 9;
    }
    if !applied(pile, deltas) {
        return 10;
    }
    if pile.len() > *most {
        return 11;
    }
    map.put(own, key as usize, pile);
    5
}

#[no_mangle]
pub unsafe extern "C" fn nr_evict(writer: &mut Handle<Writer>, key: u32) -> u32 {
    let Writer { map, own, .. } = &mut *writer.0;
    if map.kind(key as usize) != Kind::Filled {
        return 15;
    }
    map.clear(own, key as usize);
    13
}
