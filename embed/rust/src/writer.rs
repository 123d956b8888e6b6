//! What one thread fills, updates and evicts keys with.
use crate::answers::done;
use crate::ffi::{self, Handle};
use crate::map::Map;
use crate::{Cancel, Delta, Fault, KeyKind, Reader, Row, Rows, SlotCounts, Ticket, Unfilled, Updated};

/// A map's writer. Each call that takes a key panics where the map has no such key.
#[derive(Debug)]
pub struct Writer {
    pub(crate) handle: Handle,
    pub(crate) map: Map,
}

// SAFETY: a handle may go to another thread, and calls take it by `&mut`, so that two threads never use it at a time.
unsafe impl Send for Writer {}

impl Writer {
    /// Opens a reader that was returned. Refused with [`Fault::NoReader`] where there is none, or with
    /// [`Fault::NoMemory`].
    pub fn open_reader(&mut self) -> Result<Reader, Fault> {
        let mut handle = Handle::empty();
        // SAFETY: the writer's handle is live, and the other is not.
        done(unsafe { ffi::nr_open_reader(&mut self.handle, &mut handle) })?;
        Ok(Reader::of(handle, self.map))
    }

    /// Takes a reader back, so that [`Writer::open_reader`] opens it again: for threads that come and go. What it holds
    /// is released. It comes back where there is no memory. Panics where it is of another map.
    pub fn return_reader(&mut self, mut reader: Reader) -> Result<(), Reader> {
        let handle = reader.for_writer(&self.map);
        // SAFETY: both handles are of one map. Where this is done, the reader's is closed, as it may be once more.
        match unsafe { ffi::nr_return_reader(&mut self.handle, handle) } {
            ffi::NR_DONE => Ok(()),
            _ => Err(reader),
        }
    }

    /// The writer's own find.
    pub fn look<'a>(&mut self, key: u32, rows: &'a mut Rows) -> Option<&'a [Row]> {
        let key = self.map.checked(key);
        // SAFETY: the handle is live, the key was checked, and the rows are laid out as the header's.
        let found = unsafe { ffi::nr_look(&mut self.handle, key, rows) } == ffi::NR_ROWS;
        found.then(|| rows.as_slice())
    }

    /// Answers a request with the key's rows, in ascending order. Where it is refused the ticket comes back, and
    /// nothing has changed: with [`Fault::NoSlot`] it fills the key once a key was evicted or a reader released its
    /// set; with [`Fault::AllFilled`] once a key was evicted; with [`Fault::TooMany`] or [`Fault::NotSorted`] by other
    /// rows; with [`Fault::NotAsked`], [`Fault::Stale`] or [`Fault::Already`] never, since the request is over.
    /// Panics where the ticket is of another map.
    pub fn fill(&mut self, ticket: Ticket, rows: &[Row]) -> Result<(), Unfilled> {
        self.map.owns(&ticket);
        let (key, number) = (ticket.key(), ticket.number());
        // SAFETY: the handle is live, the key is one of its map's, and there are as many rows as it is told.
        let code = unsafe { ffi::nr_fill(&mut self.handle, key, number, rows.as_ptr(), rows.len()) };
        done(code).map_err(|fault| Unfilled { fault, ticket })
    }

    /// Applies 1 to 64 signed rows to the rows of a key, whole or not at all; at a key that isn't filled the batch is
    /// [`Updated::Dropped`]. Refused with [`Fault::BadBatch`], [`Fault::NoRow`], [`Fault::TooMany`],
    /// [`Fault::NoSlot`] or [`Fault::AllFilled`]; then nothing has changed.
    pub fn update(&mut self, key: u32, deltas: &[Delta]) -> Result<Updated, Fault> {
        let key = self.map.checked(key);
        // SAFETY: the handle is live, the key was checked, and there are as many signed rows as it is told.
        match unsafe { ffi::nr_update(&mut self.handle, key, deltas.as_ptr(), deltas.len()) } {
            ffi::NR_DROPPED => Ok(Updated::Dropped),
            code => done(code).map(|()| Updated::Done),
        }
    }

    /// Puts rows in ascending order in place of all of a key's; at a key that isn't filled they are [`Updated::Dropped`].
    /// Refused with [`Fault::TooMany`], [`Fault::NotSorted`], [`Fault::NoSlot`] or [`Fault::AllFilled`]; then nothing has
    /// changed.
    pub fn replace(&mut self, key: u32, rows: &[Row]) -> Result<Updated, Fault> {
        let key = self.map.checked(key);
        // SAFETY: the handle is live, the key was checked, and there are as many rows as it is told.
        match unsafe { ffi::nr_replace(&mut self.handle, key, rows.as_ptr(), rows.len()) } {
            ffi::NR_DROPPED => Ok(Updated::Dropped),
            code => done(code).map(|()| Updated::Done),
        }
    }

    /// Makes a filled key a hole, and tells whether it was filled. A key that is asked for stays so: where the rows that
    /// are under way may be out of date, call [`Writer::cancel`] first.
    pub fn evict(&mut self, key: u32) -> bool {
        let key = self.map.checked(key);
        // SAFETY: the handle is live, and the key was checked.
        unsafe { ffi::nr_evict(&mut self.handle, key) == ffi::NR_EVICTED }
    }

    /// Takes the request of a key back, as where its ticket was lost: the next one gets a ticket again. Those who wait for
    /// the key are to be woken, to request it again.
    pub fn cancel(&mut self, key: u32) -> Cancel {
        let key = self.map.checked(key);
        // SAFETY: the handle is live, and the key was checked.
        match unsafe { ffi::nr_cancel(&mut self.handle, key) } {
            ffi::NR_CANCELLED => Cancel::Cancelled,
            ffi::NR_NOTHING => Cancel::Nothing,
            _ => Cancel::Worn,
        }
    }

    /// Takes the request of a ticket back, as where its rows can't be told: the key's next one gets a ticket again. Of a
    /// ticket whose request is over this changes nothing. The ticket comes back where it has the last ticket number,
    /// 4,194,303: then only a fill by it ends the request. Panics where it is of another map.
    pub fn cancel_ticket(&mut self, ticket: Ticket) -> Result<(), Ticket> {
        self.map.owns(&ticket);
        let key = ticket.key();
        if self.number(key) == ticket.number() && self.cancel(key) == Cancel::Worn {
            return Err(ticket);
        }
        Ok(())
    }

    /// What a key is.
    pub fn state(&mut self, key: u32) -> KeyKind {
        let key = self.map.checked(key);
        // SAFETY: the handle is live, and the key was checked.
        match unsafe { ffi::nr_state(&mut self.handle, key) } {
            ffi::NR_ROWS => KeyKind::Rows,
            ffi::NR_HOLE => KeyKind::Hole,
            _ => KeyKind::Asked,
        }
    }

    /// A key's ticket number: that of its request, or of its next one.
    pub fn number(&mut self, key: u32) -> u64 {
        let key = self.map.checked(key);
        let mut number = 0;
        // SAFETY: the handle is live, and the key was checked.
        unsafe { ffi::nr_number(&mut self.handle, key, &mut number) };
        number
    }

    /// How the map's slots are in use. After [`Fault::NoSlot`] or [`Fault::AllFilled`] none is free, and the retired ones
    /// are those that the call found held.
    pub fn slot_counts(&mut self) -> SlotCounts {
        let mut counts = SlotCounts { filled: 0, retired: 0, free: 0 };
        // SAFETY: the handle is live, and the counts are laid out as the header's.
        unsafe { ffi::nr_stats(&mut self.handle, &mut counts) };
        counts
    }
}

impl Drop for Writer {
    fn drop(&mut self) {
        // SAFETY: the handle is this writer's.
        unsafe { ffi::nr_close_writer(&mut self.handle) }
    }
}
