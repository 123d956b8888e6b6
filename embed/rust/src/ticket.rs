//! Requests that were sent.
use crate::map::MapId;
use crate::Fault;
use std::fmt;

/// A request that is to be sent to the writer. It belongs to one map, and there is one of each request:
/// [`Reader::ask`] makes it, [`Writer::fill`] or [`Writer::cancel_ticket`] takes it, and a queue carries it. A key whose
/// ticket is dropped stays asked for until [`Writer::cancel`] takes the request back.
///
/// [`Reader::ask`]: crate::Reader::ask
/// [`Writer::fill`]: crate::Writer::fill
/// [`Writer::cancel_ticket`]: crate::Writer::cancel_ticket
/// [`Writer::cancel`]: crate::Writer::cancel
#[derive(Debug, PartialEq, Eq)]
#[must_use = "its key stays asked for until `Writer::fill` or `Writer::cancel_ticket` takes it"]
pub struct Ticket {
    map: MapId,
    key: u32,
    number: u64,
}

impl Ticket {
    /// One of a request that the map of that name has.
    pub(crate) fn of(map: MapId, key: u32, number: u64) -> Ticket {
        Ticket { map, key, number }
    }

    pub(crate) fn map(&self) -> MapId {
        self.map
    }

    /// The key that is asked for.
    pub fn key(&self) -> u32 {
        self.key
    }

    /// The ticket number, which each cancel of the key raises.
    pub fn number(&self) -> u64 {
        self.number
    }
}

/// A fill that was refused. Its ticket is as good as before: where the fault is [`Fault::NoSlot`], [`Fault::AllFilled`],
/// [`Fault::TooMany`] or [`Fault::NotSorted`] it fills the key later, and after any other it fills nothing any more.
#[derive(Debug, PartialEq, Eq)]
#[must_use = "its ticket is to be filled later, or given to `Writer::cancel_ticket`"]
pub struct Unfilled {
    /// Why.
    pub fault: Fault,
    /// The ticket that came with the rows.
    pub ticket: Ticket,
}

impl fmt::Display for Unfilled {
    fn fmt(&self, f: &mut fmt::Formatter<'_>) -> fmt::Result {
        write!(f, "key {} is not filled by this: {}", self.ticket.key, self.fault)
    }
}

impl std::error::Error for Unfilled {}

/// A post that was refused. Its ticket is as good as before, and is to be posted again.
#[derive(Debug, PartialEq, Eq)]
#[must_use = "its ticket is to be posted again, or given to `Writer::cancel_ticket`"]
pub struct Unposted {
    /// Why: [`Fault::Full`] or [`Fault::InTheWay`].
    pub fault: Fault,
    /// The ticket.
    pub ticket: Ticket,
}

impl fmt::Display for Unposted {
    fn fmt(&self, f: &mut fmt::Formatter<'_>) -> fmt::Result {
        write!(f, "the request of key {} is not posted: {}", self.ticket.key, self.fault)
    }
}

impl std::error::Error for Unposted {}
