//! The model, which is in C.
use std::ffi::{c_char, c_uint, CStr, CString};

unsafe extern "C" {
    fn model_fails(check: *const c_char, format: *const c_char, ...) -> !;
    fn model_opens_keys(path: *const c_char);
    fn model_key(dice: *mut u64, keys: u32) -> u32;
    fn model_rolls(dice: *mut u64) -> u64;
    fn model_counts(fault: *const c_char, times: u64);
    pub safe fn model_writes(key: u32) -> u64;
    pub safe fn model_has_written(key: u32, version: u64);
    pub safe fn model_newest(key: u32) -> u64;
    pub safe fn model_floor(key: u32) -> u64;
    pub safe fn model_answers(key: u32, its_key: u32, version: u64, floor: u64);
    pub safe fn model_makes() -> u32;
    pub safe fn model_reads(value: u32);
    pub safe fn model_drops(value: u32);
    pub safe fn model_lives(wanted: u64);
    pub safe fn model_spawns(place: u32);
    pub safe fn model_begins(place: u32);
    pub safe fn model_sleeps(place: u32, milliseconds: c_uint);
    pub safe fn model_ends(place: u32);
    pub safe fn model_awaits(from: u32, to: u32);
    pub safe fn model_tells_counts();
}

pub fn fails(check: &CStr) -> ! {
    // SAFETY: the format wants nothing more.
    unsafe { model_fails(check.as_ptr(), c"in the cache".as_ptr()) }
}

pub fn counts(fault: &'static CStr, times: u64) {
    // SAFETY: the name is there for ever.
    unsafe { model_counts(fault.as_ptr(), times) }
}

pub fn opens_keys(path: &str) {
    let path = CString::new(path).expect("a path has no byte 0");
    // SAFETY: it reads the path during the call.
    unsafe { model_opens_keys(path.as_ptr()) }
}

pub struct Dice(pub u64);

impl Dice {
    pub fn roll(&mut self, below: u64) -> u64 {
        // SAFETY: it is one number, and nobody else's.
        unsafe { model_rolls(&mut self.0) % below }
    }

    pub fn key(&mut self, keys: u32) -> u32 {
        // SAFETY: as above.
        unsafe { model_key(&mut self.0, keys) }
    }
}
