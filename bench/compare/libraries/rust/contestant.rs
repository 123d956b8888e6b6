//! What contestant.h says.

use crate::{ROWS, Value};
use std::ffi::{c_char, c_int, c_void};

#[repr(C)]
pub struct Plan {
    pub keys: u64,
    pub ids: bool,
}

#[repr(C)]
pub struct Contestant {
    pub name: *const c_char,
    pub keys: c_int,
    pub reads_only: bool,
    pub map_of: *const Contestant,
    pub open: unsafe extern "C" fn(&Plan) -> *mut c_void,
    pub reader: unsafe extern "C" fn(*mut c_void) -> *mut Value,
    pub begin: unsafe extern "C" fn(*mut c_void, *mut Value),
    pub end: unsafe extern "C" fn(*mut c_void, *mut Value),
    pub find: unsafe extern "C" fn(*mut c_void, &mut Value, u64) -> *const u64,
    pub find_each: Option<unsafe extern "C" fn()>,
    pub update: unsafe extern "C" fn(*mut c_void, u64, u64),
}

// It has constants alone.
unsafe impl Sync for Contestant {}

pub const NUMBERS: c_int = 1;
pub const IDS: c_int = 2;

impl Plan {
    pub fn all(&self) -> impl Iterator<Item = u64> + '_ {
        (0..self.keys).map(|i| if self.ids { mixed(i + 1) } else { i })
    }
}

fn mixed(k: u64) -> u64 {
    let k = (k ^ k >> 33).wrapping_mul(0xff51_afd7_ed55_8ccd);
    let k = (k ^ k >> 33).wrapping_mul(0xc4ce_b9fe_1a85_ec53);
    k ^ k >> 33
}

/// A reader's room, apart from the others' lines.
#[repr(align(256))]
struct Room(Value);

pub unsafe extern "C" fn new_reader(_: *mut c_void) -> *mut Value {
    let room = Box::leak(Box::new(Room(Value([0; 2 * ROWS]))));
    &mut room.0
}

pub unsafe extern "C" fn no_thread(_: *mut c_void, _: *mut Value) {}
