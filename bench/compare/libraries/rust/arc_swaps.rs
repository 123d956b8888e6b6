//! For each key a pointer to a counted value, which the writer swaps.

use crate::Value;
use crate::contestant::{Contestant, NUMBERS, Plan, new_reader, no_thread};
use arc_swap::ArcSwap;
use std::ffi::c_void;
use std::ptr;
use std::sync::Arc;

type Map = Vec<ArcSwap<Value>>;

unsafe extern "C" fn open(plan: &Plan) -> *mut c_void {
    let map: Map = plan
        .all()
        .map(|key| ArcSwap::from_pointee(Value::of(key, 0)))
        .collect();
    Box::into_raw(Box::new(map)).cast()
}

unsafe extern "C" fn find(map: *mut c_void, to: &mut Value, key: u64) -> *const u64 {
    let map: &Map = &*map.cast();
    *to = **map[key as usize].load();
    to.0.as_ptr()
}

unsafe extern "C" fn update(map: *mut c_void, key: u64, version: u64) {
    let map: &Map = &*map.cast();
    map[key as usize].store(Arc::new(Value::of(key, version)));
}

#[no_mangle]
pub static arc_swaps: Contestant = Contestant {
    name: c"arc-swap".as_ptr(),
    keys: NUMBERS,
    reads_only: false,
    map_of: ptr::null(),
    open,
    reader: new_reader,
    begin: no_thread,
    end: no_thread,
    find,
    find_each: None,
    update,
};
