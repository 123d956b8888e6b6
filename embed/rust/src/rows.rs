//! Rows, and what a map is opened with.
use crate::ffi;
use std::fmt;

/// Two numbers, ordered by the first and then by the second.
#[repr(C)]
#[derive(Clone, Copy, Debug, Default, PartialEq, Eq, PartialOrd, Ord, Hash)]
pub struct Row {
    /// The first.
    pub a: u64,
    /// The second.
    pub b: u64,
}

/// Room for the rows of a key.
#[repr(C)]
#[derive(Clone)]
pub struct Rows {
    count: u64,
    row: [Row; 255],
}

impl Rows {
    /// Room with no rows in it.
    pub fn new() -> Rows {
        Rows { count: 0, row: [Row::default(); 255] }
    }

    /// The rows that the last find or look wrote.
    pub fn as_slice(&self) -> &[Row] {
        &self.row[..self.count as usize]
    }
}

impl Default for Rows {
    fn default() -> Rows {
        Rows::new()
    }
}

/// A key to be found by [`Reader::find_each`](crate::Reader::find_each), and the room for its rows.
#[repr(C)]
#[derive(Clone, Debug)]
pub struct Wanted {
    key: u32,
    answer: u32,
    rows: Rows,
}

impl Wanted {
    /// A key that is yet to be found, and has no rows until then.
    pub fn new(key: u32) -> Wanted {
        Wanted { key, answer: ffi::NR_HOLE, rows: Rows::new() }
    }

    /// Another key in the same room, yet to be found.
    pub fn set(&mut self, key: u32) {
        self.key = key;
        self.answer = ffi::NR_HOLE;
    }

    /// The key.
    pub fn key(&self) -> u32 {
        self.key
    }

    /// What the last find wrote, or none where the key was a hole.
    pub fn rows(&self) -> Option<&[Row]> {
        (self.answer == ffi::NR_ROWS).then(|| self.rows.as_slice())
    }
}

/// A key to be found by [`Reader::find_each_rows`](crate::Reader::find_each_rows), and how many rows its set has.
#[repr(C)]
#[derive(Clone, Copy, Debug)]
pub struct Found {
    key: u32,
    answer: u32,
    count: u32,
}

impl Found {
    /// A key that is yet to be found, and a hole until then.
    pub fn new(key: u32) -> Found {
        Found { key, answer: ffi::NR_HOLE, count: 0 }
    }

    /// The key.
    pub fn key(&self) -> u32 {
        self.key
    }

    /// How many rows the key's set had at the last find, however many of them there was room for, or none where the key
    /// was a hole.
    pub fn count(&self) -> Option<usize> {
        (self.answer == ffi::NR_ROWS).then_some(self.count as usize)
    }
}

impl fmt::Debug for Rows {
    fn fmt(&self, f: &mut fmt::Formatter<'_>) -> fmt::Result {
        f.debug_tuple("Rows").field(&self.as_slice()).finish()
    }
}

/// A row that is added or taken away.
#[repr(C)]
#[derive(Clone, Copy, Debug, PartialEq, Eq)]
pub struct Delta {
    row: Row,
    plus: bool,
}

impl Delta {
    /// One that is added.
    pub fn plus(row: Row) -> Delta {
        Delta { row, plus: true }
    }

    /// One that is taken away.
    pub fn minus(row: Row) -> Delta {
        Delta { row, plus: false }
    }

    /// The row.
    pub fn row(&self) -> Row {
        self.row
    }

    /// Whether the row is added.
    pub fn is_plus(&self) -> bool {
        self.plus
    }
}

/// What a map is opened with: up to 65,536 keys, 131,072 slots and 1,024 readers, or else any number of keys, up to
/// 4,194,303 slots and 65,535 readers. There may be more keys than slots.
#[repr(C)]
#[derive(Clone, Copy, Debug, PartialEq, Eq)]
pub struct Shape {
    /// At least 1.
    pub keys: u32,
    /// At least 1. With one for each key, each reader and one more, each write finds a slot.
    pub slots: u32,
    /// At least 1.
    pub readers: u32,
    /// How many a key may have: 1 to 255.
    pub rows: u32,
    /// Where the slots' departures begin. 0 but in tests.
    pub first_count: u64,
    /// The first ticket number of each key, up to 4,194,303. 0 but in tests.
    pub first_number: u64,
}

impl Shape {
    /// A map of 15 rows a key.
    pub fn new(keys: u32, slots: u32, readers: u32) -> Shape {
        Shape { keys, slots, readers, rows: 15, first_count: 0, first_number: 0 }
    }
}

/// The sizes of a map.
#[repr(C)]
#[derive(Clone, Copy, Debug, Default, PartialEq, Eq)]
pub struct Sizes {
    /// How many keys it has.
    pub keys: u32,
    /// How many slots.
    pub slots: u32,
    /// How many readers.
    pub readers: u32,
    /// How many rows a key may have.
    pub rows: u32,
}

/// How a map's slots are in use. The three are all its slots.
#[repr(C)]
#[derive(Clone, Copy, Debug, PartialEq, Eq)]
pub struct SlotCounts {
    /// How many slots filled keys have, each one of its own.
    pub filled: u32,
    /// How many were taken and no key has any more: a reader holds them, or they wait to be taken again.
    pub retired: u32,
    /// How many were never taken.
    pub free: u32,
}
