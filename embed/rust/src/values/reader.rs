//! What threads borrow values with.
use super::boxed::value_of;
use super::end::End;
use crate::{Asked, Lobby, Reader, Row};
use std::fmt;
use std::marker::PhantomData;
use std::mem::{self, ManuallyDrop};
use std::ops::Deref;
use std::ptr::NonNull;
use std::sync::Arc;

/// A reader of a map of values. Each call that takes a key panics where the map has no such key. One that is dropped can
/// be opened again, by [`ValueWriter::open_reader`](crate::ValueWriter::open_reader).
pub struct ValueReader<V> {
    reader: ManuallyDrop<Reader>,
    /// Where the reader holds a set, it is this key's, and this is its row.
    held: (u32, Row),
    end: Arc<End<V>>,
}

impl<V> ValueReader<V> {
    pub(super) fn of(reader: Reader, end: Arc<End<V>>) -> ValueReader<V> {
        ValueReader { reader: ManuallyDrop::new(reader), held: (0, Row::default()), end }
    }

    /// The value of a key, borrowed until the guard is dropped, or none where the key is a hole. It stays as it is
    /// whatever happens to the key.
    pub fn find(&mut self, key: u32) -> Option<ValueRef<'_, V>> {
        self.hold(key)?;
        Some(ValueRef { value: value_of(self.held.1), reader: &mut self.reader, values: PhantomData })
    }

    /// As [`ValueReader::find`], and the reader holds the value until it finds another or makes another call. While the
    /// key keeps that value, the next `find_kept` of it writes no word that threads share. What is held isn't dropped, so
    /// a reader that finds nothing for a while is told to [`ValueReader::let_go`].
    pub fn find_kept(&mut self, key: u32) -> Option<&V> {
        if self.held.0 != key || !self.reader.again(key) {
            self.hold(key)?;
        }
        // SAFETY: the reader holds the value's set until its next call, which this borrow comes before.
        Some(unsafe { value_of::<V>(self.held.1).as_ref() })
    }

    /// Ends the hold of the last [`ValueReader::find_kept`], where there is one.
    pub fn let_go(&mut self) {
        self.reader.let_go();
    }

    /// Requests a key. The first request since it became a hole is the one to be sent.
    pub fn ask(&mut self, key: u32) -> Asked {
        self.reader.ask(key)
    }

    /// Requests a key for a waiter, as [`Lobby::ask`].
    pub fn ask_in<W>(&mut self, lobby: &Lobby<W>, key: u32, waiter: W) -> Asked {
        lobby.ask(&mut self.reader, key, waiter)
    }

    /// Holds the set of a key, which the reader's next call lets go.
    fn hold(&mut self, key: u32) -> Option<()> {
        let mut pin = self.reader.pin(key)?;
        let row = pin.row(0).expect("a set of this map has a row");
        // Without its pin the reader holds on.
        mem::forget(pin);
        self.held = (key, row);
        Some(())
    }
}

impl<V> Drop for ValueReader<V> {
    fn drop(&mut self) {
        // SAFETY: nothing uses it after this.
        self.end.leave_reader(unsafe { ManuallyDrop::take(&mut self.reader) });
    }
}

impl<V> fmt::Debug for ValueReader<V> {
    fn fmt(&self, f: &mut fmt::Formatter<'_>) -> fmt::Result {
        f.debug_struct("ValueReader").field("reader", &*self.reader).finish_non_exhaustive()
    }
}

/// A value that a reader holds, which stays as it is whatever happens to its key. Dropping this lets it go; where this is
/// forgotten, the reader's next call does.
pub struct ValueRef<'a, V> {
    /// No reference, which would have to last as long as the guard's own end.
    value: NonNull<V>,
    reader: &'a mut Reader,
    values: PhantomData<&'a V>,
}

// SAFETY: it is a reference to the value, and the reader alone that holds it.
unsafe impl<V: Sync> Send for ValueRef<'_, V> {}
// SAFETY: shared, it gives references to the value and nothing else.
unsafe impl<V: Sync> Sync for ValueRef<'_, V> {}

impl<V> Deref for ValueRef<'_, V> {
    type Target = V;

    fn deref(&self) -> &V {
        // SAFETY: the reader holds the value's set until this guard's end.
        unsafe { self.value.as_ref() }
    }
}

impl<V> Drop for ValueRef<'_, V> {
    fn drop(&mut self) {
        self.reader.let_go();
    }
}

impl<V: fmt::Debug> fmt::Debug for ValueRef<'_, V> {
    fn fmt(&self, f: &mut fmt::Formatter<'_>) -> fmt::Result {
        V::fmt(self, f)
    }
}
