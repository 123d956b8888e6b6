//! dashmap: a hash table in parts, each under a lock.

use crate::contestant::{Contestant, IDS, Plan, new_reader, no_thread};
use crate::{Hash, Value};
use dashmap::DashMap;
use std::ffi::c_void;
use std::ptr;

type Map = DashMap<u64, Value, Hash>;

unsafe extern "C" fn open(plan: &Plan) -> *mut c_void {
    let map = Map::with_capacity_and_hasher(plan.keys as usize, Default::default());
    for key in plan.all() {
        map.insert(key, Value::of(key, 0));
    }
    Box::into_raw(Box::new(map)).cast()
}

unsafe extern "C" fn find(map: *mut c_void, to: &mut Value, key: u64) -> *const u64 {
    let map: &Map = &*map.cast();
    let Some(found) = map.get(&key) else {
        return ptr::null();
    };
    *to = *found;
    to.0.as_ptr()
}

unsafe extern "C" fn update(map: *mut c_void, key: u64, version: u64) {
    let map: &Map = &*map.cast();
    *map.get_mut(&key).expect("a key that is there") = Value::of(key, version);
}

#[no_mangle]
pub static dashmaps: Contestant = Contestant {
    name: c"dashmap".as_ptr(),
    keys: IDS,
    reads_only: false,
    map_of: ptr::null(),
    open,
    reader: new_reader,
    begin: no_thread,
    end: no_thread,
    find,
    find_each: None,
    update,
};
