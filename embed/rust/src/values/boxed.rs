//! What a row of a map of values refers to.
use crate::Row;
use std::mem::{self, ManuallyDrop};
use std::ptr::NonNull;

/// A value that no key has, and that is freed with this.
pub(super) struct Boxed<V>(NonNull<V>);

impl<V> Boxed<V> {
    pub fn new(value: V) -> Boxed<V> {
        Boxed(NonNull::from(Box::leak(Box::new(value))))
    }

    /// The row of its set.
    pub fn row(&self) -> Row {
        Row { a: 0, b: self.0.as_ptr() as u64 }
    }

    /// Its set was put: the value is the map's from now on.
    pub fn put(self) {
        mem::forget(self);
    }

    /// # Safety
    ///
    /// The rows are a set of a map of such values, which came back from it now.
    pub unsafe fn came_back(rows: &[Row]) -> Boxed<V> {
        Boxed(value_of(rows[0]))
    }

    pub fn into_value(self) -> V {
        let boxed = ManuallyDrop::new(self);
        // SAFETY: it came of a box, and is not freed with this any more.
        *unsafe { Box::from_raw(boxed.0.as_ptr()) }
    }
}

impl<V> Drop for Boxed<V> {
    fn drop(&mut self) {
        // SAFETY: it came of a box, and nobody else has it.
        drop(unsafe { Box::from_raw(self.0.as_ptr()) });
    }
}

/// Where the value is that a row of a map of such values refers to.
pub(super) fn value_of<V>(row: Row) -> NonNull<V> {
    NonNull::new(row.b as *mut V).expect("a row refers to a value")
}
