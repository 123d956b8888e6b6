//! Requests of several maps on their way to their writers.
use crate::ends::{self, In, Out};
use crate::map::MapId;
use crate::{Fault, Ticket, Unposted, Writer};
use std::sync::Arc;
use std::thread;

/// A queue of several maps: its taker, and its posters, as those of a [`Queue`](crate::Queue).
#[derive(Debug)]
pub struct SharedQueue {
    /// The one that takes.
    pub taker: SharedTaker,
    /// Those that post, each for a thread of its own.
    pub posters: Vec<SharedPoster>,
}

impl SharedQueue {
    /// Opens a queue for 1 to 4,194,303 tickets of the writers' maps, with 1 to 65,535 posters. Refused with
    /// [`Fault::BadSize`], as where the maps have 2^32 keys together, or with [`Fault::NoMemory`]. Panics where two
    /// of the writers are of one map.
    pub fn open(writers: &[&Writer], capacity: u32, posters: u32) -> Result<SharedQueue, Fault> {
        let maps = Arc::new(Maps::of(writers)?);
        let (out, ins) = ends::open(maps.keys, capacity, posters)?;
        let posters = ins.into_iter().map(|end| SharedPoster { end, maps: Arc::clone(&maps) }).collect();
        Ok(SharedQueue { taker: SharedTaker { end: out, maps }, posters })
    }
}

/// The maps of a queue, in their order. In the queue a map's key comes after all keys of the maps before its own.
#[derive(Debug)]
struct Maps {
    first: Vec<(MapId, u32)>,
    keys: u32,
}

impl Maps {
    fn of(writers: &[&Writer]) -> Result<Maps, Fault> {
        let mut maps = Maps { first: Vec::with_capacity(writers.len()), keys: 0 };
        for writer in writers {
            let id = writer.map.id;
            assert!(maps.first_key(id).is_none(), "two of the writers are of one map");
            maps.first.push((id, maps.keys));
            maps.keys = maps.keys.checked_add(writer.map.keys).ok_or(Fault::BadSize)?;
        }
        Ok(maps)
    }

    /// The queue's key for a map's first.
    fn first_key(&self, map: MapId) -> Option<u32> {
        self.first.iter().find(|(id, _)| *id == map).map(|(_, first)| *first)
    }

    /// The place of the map that a key of the queue is of, and its ticket.
    fn ticket(&self, key: u32, number: u64) -> (usize, Ticket) {
        let place = self.first.partition_point(|(_, first)| *first <= key) - 1;
        let (map, first) = self.first[place];
        (place, Ticket::of(map, key - first, number))
    }
}

/// What one thread posts the tickets of several maps with.
#[derive(Debug)]
pub struct SharedPoster {
    end: In,
    maps: Arc<Maps>,
}

impl SharedPoster {
    /// Puts a ticket at the back. It comes back with [`Fault::Full`] or [`Fault::InTheWay`]. Panics where it is of a map
    /// that the queue isn't for.
    pub fn post(&mut self, ticket: Ticket) -> Result<(), Unposted> {
        let Some(first) = self.maps.first_key(ticket.map()) else {
            panic!("the ticket is of none of the queue's maps");
        };
        self.end.post(first + ticket.key(), ticket.number()).map_err(|fault| Unposted { fault, ticket })
    }

    /// The same, and lets other threads go on until the ticket is there.
    pub fn post_waiting(&mut self, mut ticket: Ticket) {
        while let Err(back) = self.post(ticket) {
            ticket = back.ticket;
            thread::yield_now();
        }
    }
}

/// What one thread takes the tickets of several maps with.
#[derive(Debug)]
pub struct SharedTaker {
    end: Out,
    maps: Arc<Maps>,
}

impl SharedTaker {
    /// Takes the ticket at the front, with the index of its map among the writers that the queue was opened with. Refused
    /// with [`Fault::Empty`] or [`Fault::InTheWay`].
    pub fn take(&mut self) -> Result<(usize, Ticket), Fault> {
        let (key, number) = self.end.take()?;
        Ok(self.maps.ticket(key, number))
    }
}
