//! The libraries of Rust among those that libraries.c and caches.c measure, each of them by a feature: what contestant.h and
//! cache.h say, in Rust.

use std::hash::{BuildHasherDefault, Hasher};

#[cfg(feature = "maps")]
mod arc_swaps;
#[cfg(feature = "caches")]
mod caches;
#[cfg(feature = "maps")]
mod contestant;
#[cfg(feature = "maps")]
mod dashmaps;

#[cfg(feature = "long")]
const ROWS: usize = 64;
#[cfg(not(feature = "long"))]
const ROWS: usize = 4;

#[derive(Clone, Copy)]
#[repr(C)]
struct Value([u64; 2 * ROWS]);

impl Value {
    fn of(key: u64, version: u64) -> Value {
        let mut words = [key; 2 * ROWS];
        for (j, row) in words.chunks_mut(2).enumerate() {
            row[1] = (version << 8) + j as u64;
        }
        Value(words)
    }
}

/// The same cheap hash as of the other tables.
#[derive(Default)]
struct Mix(u64);

type Hash = BuildHasherDefault<Mix>;

impl Hasher for Mix {
    fn finish(&self) -> u64 {
        self.0
    }

    fn write(&mut self, _: &[u8]) {
        unreachable!("keys are numbers")
    }

    fn write_u64(&mut self, id: u64) {
        let mixed = id.wrapping_mul(0x9e37_79b9_7f4a_7c15);
        self.0 = mixed ^ mixed >> 32;
    }
}
