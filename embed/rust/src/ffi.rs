//! The functions of `include/nr.h`.
use crate::ids::{Counted, Given, IdShape, Loading, Stamped};
use crate::{Delta, Found, Row, Rows, Shape, Sizes, SlotCounts, Wanted};
use std::ffi::c_void;

/// A handle of any kind. Each token of this crate opens one as it is made, so that it is live, and closes it as it is
/// dropped.
#[repr(transparent)]
#[derive(Debug)]
pub struct Handle(*mut c_void);

impl Handle {
    /// One that leads nowhere, to be opened.
    pub const fn empty() -> Handle {
        Handle(std::ptr::null_mut())
    }
}

pub const NR_ROWS: u32 = 0;
pub const NR_HOLE: u32 = 1;
pub const NR_SEND: u32 = 2;
pub const NR_WAITING: u32 = 3;
pub const NR_DONE: u32 = 5;
pub const NR_NOT_ASKED: u32 = 6;
pub const NR_ALREADY: u32 = 7;
pub const NR_STALE: u32 = 8;
pub const NR_DROPPED: u32 = 9;
pub const NR_NO_ROW: u32 = 10;
pub const NR_TOO_MANY: u32 = 11;
pub const NR_NO_SLOT: u32 = 12;
pub const NR_EVICTED: u32 = 13;
pub const NR_CANCELLED: u32 = 14;
pub const NR_NOTHING: u32 = 15;
pub const NR_BAD_BATCH: u32 = 18;
pub const NR_NOT_SORTED: u32 = 19;
pub const NR_BAD_SIZE: u32 = 20;
pub const NR_NO_MEMORY: u32 = 21;
pub const NR_NO_READER: u32 = 22;
pub const NR_FULL: u32 = 24;
pub const NR_EMPTY: u32 = 25;
pub const NR_ALL_FILLED: u32 = 30;
pub const NR_CLOSED: u32 = 31;
pub const NR_IN_THE_WAY: u32 = 33;
pub const NR_GIVEN: u32 = 34;
pub const NR_HELD: u32 = 35;
pub const NR_STRANGER: u32 = 39;

extern "C" {
    pub fn nr_version() -> u32;
    pub fn nr_struct_size(place: u32) -> u32;
    pub fn nr_open(shape: *const Shape, writer: *mut Handle) -> u32;
    pub fn nr_open_reader(writer: *mut Handle, reader: *mut Handle) -> u32;
    pub fn nr_return_reader(writer: *mut Handle, reader: *mut Handle) -> u32;
    pub fn nr_close_reader(reader: *mut Handle);
    pub fn nr_close_writer(writer: *mut Handle);
    pub fn nr_find(reader: *mut Handle, key: u32, rows: *mut Rows) -> u32;
    pub fn nr_find_each(reader: *mut Handle, wanted: *mut Wanted, n: usize) -> u32;
    pub fn nr_find_each_rows(reader: *mut Handle, wanted: *mut Found, n: usize, rows: *mut Row, all: usize) -> u32;
    pub fn nr_ask(reader: *mut Handle, key: u32, number: *mut u64) -> u32;
    pub fn nr_pin(reader: *mut Handle, key: u32, count: *mut u32) -> u32;
    pub fn nr_row_at(reader: *mut Handle, place: u32, row: *mut Row) -> u32;
    pub fn nr_copy(reader: *mut Handle, rows: *mut Rows) -> u32;
    pub fn nr_again(reader: *mut Handle, key: u32) -> u32;
    pub fn nr_find_kept(reader: *mut Handle, key: u32, rows: *mut Rows) -> u32;
    pub fn nr_release(reader: *mut Handle) -> u32;
    pub fn nr_look(writer: *mut Handle, key: u32, rows: *mut Rows) -> u32;
    pub fn nr_fill(writer: *mut Handle, key: u32, number: u64, rows: *const Row, n: usize) -> u32;
    pub fn nr_update(writer: *mut Handle, key: u32, deltas: *const Delta, n: usize) -> u32;
    pub fn nr_replace(writer: *mut Handle, key: u32, rows: *const Row, n: usize) -> u32;
    pub fn nr_fill_reclaiming(
        writer: *mut Handle,
        key: u32,
        number: u64,
        rows: *const Row,
        n: usize,
        had: *mut Rows,
    ) -> u32;
    pub fn nr_update_reclaiming(writer: *mut Handle, key: u32, deltas: *const Delta, n: usize, had: *mut Rows) -> u32;
    pub fn nr_replace_reclaiming(writer: *mut Handle, key: u32, rows: *const Row, n: usize, had: *mut Rows) -> u32;
    pub fn nr_reap(writer: *mut Handle, had: *mut Rows) -> u32;
    pub fn nr_take_apart(writer: *mut Handle, remains: *mut Handle) -> u32;
    pub fn nr_next(remains: *mut Handle, had: *mut Rows) -> u32;
    pub fn nr_close_remains(remains: *mut Handle);
    pub fn nr_evict(writer: *mut Handle, key: u32) -> u32;
    pub fn nr_cancel(writer: *mut Handle, key: u32) -> u32;
    pub fn nr_state(writer: *mut Handle, key: u32) -> u32;
    pub fn nr_number(writer: *mut Handle, key: u32, number: *mut u64) -> u32;
    pub fn nr_stats(writer: *mut Handle, slots: *mut SlotCounts) -> u32;
    pub fn nr_sizes(reader: *mut Handle, sizes: *mut Sizes) -> u32;
    pub fn nr_open_queue(keys: u32, capacity: u32, posters: u32, taker: *mut Handle) -> u32;
    pub fn nr_open_poster(taker: *mut Handle, poster: *mut Handle) -> u32;
    pub fn nr_close_poster(poster: *mut Handle);
    pub fn nr_close_taker(taker: *mut Handle);
    pub fn nr_post(poster: *mut Handle, key: u32, number: u64) -> u32;
    pub fn nr_take(taker: *mut Handle, key: *mut u32, number: *mut u64) -> u32;
    pub fn nr_open_cache(shape: *const IdShape, ids: *mut Handle) -> u32;
    pub fn nr_open_cache_reader(ids: *mut Handle, reader: *mut Handle) -> u32;
    pub fn nr_close_cache_reader(reader: *mut Handle);
    pub fn nr_close_cache(ids: *mut Handle);
    pub fn nr_cache_find(reader: *mut Handle, id: u64, found: *mut Stamped) -> u32;
    pub fn nr_cache_hold(reader: *mut Handle, id: u64, found: *mut Stamped) -> u32;
    pub fn nr_cache_release(reader: *mut Handle) -> u32;
    pub fn nr_cache_begin(ids: *mut Handle, id: u64, mark: u64, flight: *mut Loading) -> u32;
    pub fn nr_cache_land(
        ids: *mut Handle,
        number: u64,
        stamp: u64,
        value: u64,
        weight: u32,
        bound: u64,
        given: *mut Given,
    ) -> u32;
    pub fn nr_cache_fail(ids: *mut Handle, number: u64, flight: *mut Loading) -> u32;
    pub fn nr_cache_put(
        ids: *mut Handle,
        id: u64,
        stamp: u64,
        value: u64,
        weight: u32,
        bound: u64,
        given: *mut Given,
    ) -> u32;
    pub fn nr_cache_swap(
        ids: *mut Handle,
        id: u64,
        old: u64,
        stamp: u64,
        value: u64,
        weight: u32,
        bound: u64,
        given: *mut Given,
    ) -> u32;
    pub fn nr_cache_look(ids: *mut Handle, id: u64, found: *mut Stamped) -> u32;
    pub fn nr_cache_invalidate(ids: *mut Handle, id: u64) -> u32;
    pub fn nr_cache_invalidate_all(ids: *mut Handle) -> u32;
    pub fn nr_cache_evict(ids: *mut Handle, id: u64) -> u32;
    pub fn nr_cache_begin_change(ids: *mut Handle, id: u64) -> u32;
    pub fn nr_cache_end_change(ids: *mut Handle, id: u64) -> u32;
    pub fn nr_cache_reap(ids: *mut Handle, given: *mut Given) -> u32;
    pub fn nr_cache_count(ids: *mut Handle, counted: *mut Counted) -> u32;
}
