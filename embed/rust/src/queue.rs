//! Requests of one map on their way to the writer.
use crate::ends::{self, In, Out};
use crate::map::Map;
use crate::{Fault, Ticket, Unposted, Writer};
use std::thread;

/// A queue's tokens as they come: its taker, and its posters, which share its memory. It goes with the last of
/// them, and so do the tickets that it holds.
#[derive(Debug)]
pub struct Queue {
    /// The one that takes.
    pub taker: Taker,
    /// Those that post, each for a thread of its own.
    pub posters: Vec<Poster>,
}

impl Queue {
    /// Opens a queue for 1 to 4,194,303 tickets of the writer's map, with 1 to 65,535 posters. A capacity of the map's
    /// number of keys holds all its tickets, where none is cancelled. Refused with [`Fault::BadSize`] or [`Fault::NoMemory`].
    pub fn open(writer: &Writer, capacity: u32, posters: u32) -> Result<Queue, Fault> {
        let map = writer.map;
        let (out, ins) = ends::open(map.keys, capacity, posters)?;
        let posters = ins.into_iter().map(|end| Poster { end, map }).collect();
        Ok(Queue { taker: Taker { end: out, map }, posters })
    }
}

/// What one thread posts with.
#[derive(Debug)]
pub struct Poster {
    end: In,
    map: Map,
}

impl Poster {
    /// Puts a ticket at the back. It comes back with [`Fault::Full`] or [`Fault::InTheWay`]. Panics where it is another
    /// map's.
    pub fn post(&mut self, ticket: Ticket) -> Result<(), Unposted> {
        self.map.owns(&ticket);
        self.end.post(ticket.key(), ticket.number()).map_err(|fault| Unposted { fault, ticket })
    }

    /// Puts a ticket at the back, and lets other threads go on until it is there: while the queue is full, or another
    /// thread is in the way. Panics where the ticket is another map's.
    pub fn post_waiting(&mut self, mut ticket: Ticket) {
        while let Err(back) = self.post(ticket) {
            ticket = back.ticket;
            thread::yield_now();
        }
    }
}

/// What one thread takes with.
#[derive(Debug)]
pub struct Taker {
    end: Out,
    map: Map,
}

impl Taker {
    /// Takes the ticket at the front. Refused with [`Fault::Empty`] or [`Fault::InTheWay`].
    pub fn take(&mut self) -> Result<Ticket, Fault> {
        let (key, number) = self.end.take()?;
        Ok(Ticket::of(self.map.id, key, number))
    }
}
