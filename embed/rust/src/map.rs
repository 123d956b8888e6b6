//! A map, and what its tokens know of it.
use crate::answers::done;
use crate::ffi::{self, Handle};
use crate::{library, Fault, Reader, Shape, Ticket, Writer};
use std::sync::atomic::{AtomicU64, Ordering::Relaxed};

/// A map's tokens as they come: its writer, and its readers, which share its memory. It goes with the last of them.
#[derive(Debug)]
pub struct ReaderMap {
    /// The one that fills, updates and evicts.
    pub writer: Writer,
    /// Those that look keys up, each for a thread of its own.
    pub readers: Vec<Reader>,
}

impl ReaderMap {
    /// Opens a map of that shape: every key is a hole. Refused with [`Fault::BadSize`] where a size is out of its
    /// limits, with [`Fault::NoMemory`], or with [`Fault::OtherLibrary`] where another library than the crate's is linked.
    pub fn open(shape: &Shape) -> Result<ReaderMap, Fault> {
        library::is_own()?;
        let mut handle = Handle::empty();
        // SAFETY: the handle isn't live, and the shape is laid out as the header's.
        done(unsafe { ffi::nr_open(shape, &mut handle) })?;
        let mut writer = Writer { handle, map: Map::new(shape.keys) };
        let readers = (0..shape.readers).map(|_| writer.open_reader()).collect::<Result<_, _>>()?;
        Ok(ReaderMap { writer, readers })
    }
}

/// Which map of this process it is.
#[derive(Clone, Copy, Debug, PartialEq, Eq)]
pub(crate) struct MapId(u64);

/// Whose a token is, and which keys there are.
#[derive(Clone, Copy, Debug)]
pub(crate) struct Map {
    pub id: MapId,
    pub keys: u32,
}

impl Map {
    fn new(keys: u32) -> Map {
        static OPENED: AtomicU64 = AtomicU64::new(0);
        Map { id: MapId(OPENED.fetch_add(1, Relaxed)), keys }
    }

    /// The key, where the map has it. Panics else.
    pub fn checked(&self, key: u32) -> u32 {
        assert!(key < self.keys, "the map has {} keys, and the key is {key}", self.keys);
        key
    }

    /// Panics where the ticket is another map's.
    pub fn owns(&self, ticket: &Ticket) {
        assert!(ticket.map() == self.id, "the ticket is another map's");
    }

    /// Panics where the other is another map.
    pub fn is_of(&self, other: &Map) {
        assert!(self.id == other.id, "the tokens are of two maps");
    }
}
