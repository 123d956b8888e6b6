//! What calls answer.
use crate::{ffi, library, Ticket};
use std::fmt;

/// Why a call is refused. A later version may have more causes.
#[non_exhaustive]
#[derive(Clone, Copy, Debug, PartialEq, Eq)]
pub enum Fault {
    /// Nobody asked for the key, or the request was taken back.
    NotAsked,
    /// The key is filled.
    Already,
    /// The request that it answers was taken back, and there is another.
    Stale,
    /// A row to be taken away is not there.
    NoRow,
    /// More rows than a key of the map may have.
    TooMany,
    /// Readers hold the slots that are no filled key's: there is one when they let go, or after an eviction.
    NoSlot,
    /// Each slot is a filled key's: there is one after an eviction.
    AllFilled,
    /// No signed rows, or more than 64.
    BadBatch,
    /// A row is below the one before it.
    NotSorted,
    /// A size is out of its limits.
    BadSize,
    /// There is no memory.
    NoMemory,
    /// Each reader of the map is open, or was dropped.
    NoReader,
    /// The queue was full at one moment of the call.
    Full,
    /// The queue was empty at one moment of the call.
    Empty,
    /// Another thread was within a call of its own: the same call may be made again at once.
    InTheWay,
    /// The library that is linked has another version than this crate, or structs of other sizes.
    OtherLibrary,
}

impl fmt::Display for Fault {
    fn fmt(&self, f: &mut fmt::Formatter<'_>) -> fmt::Result {
        f.write_str(match self {
            Fault::NotAsked => "nobody asked for the key",
            Fault::Already => "the key is filled",
            Fault::Stale => "the request that it answers was taken back",
            Fault::NoRow => "a row to be taken away is not there",
            Fault::TooMany => "more rows than a key may have",
            Fault::NoSlot => "readers hold the slots that are no filled key's",
            Fault::AllFilled => "each slot is a filled key's",
            Fault::BadBatch => "no signed rows, or more than 64",
            Fault::NotSorted => "the rows are not in order",
            Fault::BadSize => "a size is out of its limits",
            Fault::NoMemory => "there is no memory",
            Fault::NoReader => "each reader is open or was dropped",
            Fault::Full => "the queue is full",
            Fault::Empty => "the queue is empty",
            Fault::InTheWay => "another thread is in the way",
            Fault::OtherLibrary => library::IS_ANOTHER,
        })
    }
}

impl std::error::Error for Fault {}

pub(crate) fn done(code: u32) -> Result<(), Fault> {
    Err(match code {
        ffi::NR_DONE => return Ok(()),
        ffi::NR_NOT_ASKED => Fault::NotAsked,
        ffi::NR_ALREADY => Fault::Already,
        ffi::NR_STALE | ffi::NR_STRANGER => Fault::Stale,
        ffi::NR_NO_ROW => Fault::NoRow,
        ffi::NR_TOO_MANY => Fault::TooMany,
        ffi::NR_NO_SLOT => Fault::NoSlot,
        ffi::NR_ALL_FILLED => Fault::AllFilled,
        ffi::NR_BAD_BATCH => Fault::BadBatch,
        ffi::NR_NOT_SORTED => Fault::NotSorted,
        ffi::NR_BAD_SIZE => Fault::BadSize,
        ffi::NR_NO_MEMORY => Fault::NoMemory,
        ffi::NR_NO_READER => Fault::NoReader,
        ffi::NR_FULL => Fault::Full,
        ffi::NR_EMPTY => Fault::Empty,
        ffi::NR_IN_THE_WAY => Fault::InTheWay,
        _ => unreachable!("an answer of another call"),
    })
}

/// What became of an update or a replacement.
#[derive(Clone, Copy, Debug, PartialEq, Eq)]
pub enum Updated {
    /// The key has the new rows.
    Done,
    /// The key isn't filled, so there was nothing to change: a later fill brings the rows as they are then.
    Dropped,
}

/// The answer to a request.
#[derive(Debug, PartialEq, Eq)]
#[must_use = "where it is `Send`, its ticket is to be sent"]
pub enum Asked {
    /// This is the first request since the key became a hole: the ticket is to be sent to the writer.
    Send(Ticket),
    /// A request is under way.
    Waiting,
    /// The key is filled.
    Filled,
    /// The writer was dropped, so nobody will fill the key.
    Closed,
}

/// What a key is.
#[derive(Clone, Copy, Debug, PartialEq, Eq)]
pub enum KeyKind {
    /// It has no rows, and nobody asks for them.
    Hole,
    /// A request is under way.
    Asked,
    /// It is filled.
    Rows,
}

/// The answer to a cancel.
#[derive(Clone, Copy, Debug, PartialEq, Eq)]
pub enum Cancel {
    /// The request is taken back: the next one gets a ticket again, and the old ticket fills nothing.
    Cancelled,
    /// Nobody asks for the key.
    Nothing,
    /// The request has the last ticket number, 4,194,303: only its own fill ends it.
    Worn,
}
