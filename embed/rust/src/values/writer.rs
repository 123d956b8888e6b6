//! What one thread fills, replaces and evicts values with.
use super::boxed::{value_of, Boxed};
use super::end::End;
use super::ValueReader;
use crate::{Cancel, Fault, KeyKind, Reaped, Reclaimed, Row, Rows, Ticket, Unfilled, Updated, Writer};
use std::error::Error;
use std::fmt;
use std::mem::ManuallyDrop;
use std::sync::Arc;

/// The writer of a map of values. Each call that takes a key panics where the map has no such key.
///
/// A value that was replaced or evicted waits while readers hold it. Each replacement and eviction drops the oldest that
/// nobody holds any more, and so does a fill or replacement that takes its slot: few wait. [`ValueWriter::reap`] gives
/// them back.
pub struct ValueWriter<V> {
    writer: ManuallyDrop<Writer>,
    room: Box<Rows>,
    end: Arc<End<V>>,
}

impl<V> ValueWriter<V> {
    pub(super) fn of(writer: Writer, end: Arc<End<V>>) -> ValueWriter<V> {
        ValueWriter { writer: ManuallyDrop::new(writer), room: Box::default(), end }
    }

    /// For those that take a map's writer to be of its map: [`Queue::open`](crate::Queue::open),
    /// [`SharedQueue::open`](crate::SharedQueue::open) and [`Lobby::of`](crate::Lobby::of).
    pub fn writer(&self) -> &Writer {
        &self.writer
    }

    /// Opens a reader that was dropped. Refused with [`Fault::NoReader`] where there is none.
    pub fn open_reader(&mut self) -> Result<ValueReader<V>, Fault> {
        let reader = self.end.take_reader().ok_or(Fault::NoReader)?;
        Ok(ValueReader::of(reader, Arc::clone(&self.end)))
    }

    /// The writer's own find.
    pub fn look(&mut self, key: u32) -> Option<&V> {
        let rows = self.writer.look(key, &mut self.room)?;
        // SAFETY: while this borrow lasts the writer makes no call, so the key keeps its value.
        Some(unsafe { value_of(rows[0]).as_ref() })
    }

    /// Answers a request with the key's value. Where it is refused ticket and value come back, and nothing has changed:
    /// with [`Fault::NoSlot`] they fill the key once a key was evicted or a reader let go; with [`Fault::AllFilled`] once
    /// a key was evicted; with [`Fault::NotAsked`], [`Fault::Stale`] or [`Fault::Already`] never, since the request is no
    /// more. Panics where the ticket is of another map.
    pub fn fill(&mut self, ticket: Ticket, value: V) -> Result<(), UnfilledValue<V>> {
        let value = Boxed::new(value);
        match self.writer.fill_reclaiming(ticket, &[value.row()], &mut self.room) {
            Ok(had) => {
                value.put();
                drop_each::<V>(had);
                Ok(())
            }
            Err(Unfilled { fault, ticket }) => Err(UnfilledValue { fault, ticket, value: value.into_value() }),
        }
    }

    /// Puts a value in place of a key's; of a key that isn't filled it is [`Updated::Dropped`]. Where it is refused, with
    /// [`Fault::NoSlot`] or [`Fault::AllFilled`], the value comes back, and nothing has changed.
    pub fn replace(&mut self, key: u32, value: V) -> Result<Updated, UnreplacedValue<V>> {
        let value = Boxed::new(value);
        match self.writer.replace_reclaiming(key, &[value.row()], &mut self.room) {
            Ok(Reclaimed::Done(had)) => {
                value.put();
                drop_each::<V>(had);
                drop(self.reap());
                Ok(Updated::Done)
            }
            Ok(Reclaimed::Dropped) => Ok(Updated::Dropped),
            Err(fault) => Err(UnreplacedValue { fault, value: value.into_value() }),
        }
    }

    /// Makes a new value of a key's, and replaces it by that. Of a key that isn't filled nothing is made.
    pub fn update(&mut self, key: u32, change: impl FnOnce(&V) -> V) -> Result<Updated, UnreplacedValue<V>> {
        match self.look(key).map(change) {
            Some(value) => self.replace(key, value),
            None => Ok(Updated::Dropped),
        }
    }

    /// Makes a filled key a hole; whether it was filled. Where the value that is under way may be out of date, call
    /// [`ValueWriter::cancel`] first.
    pub fn evict(&mut self, key: u32) -> bool {
        let evicted = self.writer.evict(key);
        drop(self.reap());
        evicted
    }

    /// Gives back the value that has waited longest of those that nobody holds, or none where there is none. Made over
    /// and over it empties what waits, as after readers let go.
    pub fn reap(&mut self) -> Option<V> {
        let Reaped::Set(rows) = self.writer.reap(&mut self.room) else { return None };
        // SAFETY: the set is of this map, and came back.
        Some(unsafe { Boxed::came_back(rows) }.into_value())
    }

    /// Takes the request of a key back, as [`Writer::cancel`].
    pub fn cancel(&mut self, key: u32) -> Cancel {
        self.writer.cancel(key)
    }

    /// Takes the request of a ticket back, as [`Writer::cancel_ticket`].
    pub fn cancel_ticket(&mut self, ticket: Ticket) -> Result<(), Ticket> {
        self.writer.cancel_ticket(ticket)
    }

    /// What a key is. [`KeyKind::Rows`] says that it has a value.
    pub fn state(&mut self, key: u32) -> KeyKind {
        self.writer.state(key)
    }
}

/// Drops the value of a set that came back from a map of such values, where one did.
fn drop_each<V>(had: Option<&[Row]>) {
    if let Some(rows) = had {
        // SAFETY: as said above.
        drop(unsafe { Boxed::<V>::came_back(rows) });
    }
}

impl<V> Drop for ValueWriter<V> {
    fn drop(&mut self) {
        // SAFETY: nothing uses it after this.
        self.end.leave_writer(unsafe { ManuallyDrop::take(&mut self.writer) });
    }
}

impl<V> fmt::Debug for ValueWriter<V> {
    fn fmt(&self, f: &mut fmt::Formatter<'_>) -> fmt::Result {
        f.debug_struct("ValueWriter").field("writer", &*self.writer).finish_non_exhaustive()
    }
}

/// A fill that was refused, as an [`Unfilled`], with its value.
#[must_use = "its ticket is to be filled later, or given to `ValueWriter::cancel_ticket`"]
pub struct UnfilledValue<V> {
    /// Why.
    pub fault: Fault,
    /// The ticket that came with the value.
    pub ticket: Ticket,
    /// The value.
    pub value: V,
}

impl<V> fmt::Display for UnfilledValue<V> {
    fn fmt(&self, f: &mut fmt::Formatter<'_>) -> fmt::Result {
        write!(f, "key {} is not filled by this: {}", self.ticket.key(), self.fault)
    }
}

impl<V> fmt::Debug for UnfilledValue<V> {
    fn fmt(&self, f: &mut fmt::Formatter<'_>) -> fmt::Result {
        f.debug_struct("UnfilledValue")
            .field("fault", &self.fault)
            .field("ticket", &self.ticket)
            .finish_non_exhaustive()
    }
}

impl<V> Error for UnfilledValue<V> {}

/// A replacement or an update that was refused, with its value.
pub struct UnreplacedValue<V> {
    /// Why: [`Fault::NoSlot`] or [`Fault::AllFilled`].
    pub fault: Fault,
    /// The new value.
    pub value: V,
}

impl<V> fmt::Display for UnreplacedValue<V> {
    fn fmt(&self, f: &mut fmt::Formatter<'_>) -> fmt::Result {
        write!(f, "the value is not replaced: {}", self.fault)
    }
}

impl<V> fmt::Debug for UnreplacedValue<V> {
    fn fmt(&self, f: &mut fmt::Formatter<'_>) -> fmt::Result {
        f.debug_struct("UnreplacedValue").field("fault", &self.fault).finish_non_exhaustive()
    }
}

impl<V> Error for UnreplacedValue<V> {}
