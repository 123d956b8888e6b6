//! A cache of numbers by ids, as the cache of values calls it. What it decides is proved: which loads are under way, whether a
//! loaded number is held, which one makes room for another, and when one comes out.
use crate::answers::done;
use crate::cache::sync::{changes_store, reads_store, sees};
use crate::ffi::{self, Handle};
use crate::{library, Fault};

/// What it is opened with. Each group has eight places.
#[repr(C)]
#[derive(Clone, Copy, Debug)]
pub struct IdShape {
    pub groups: u32,
    pub capacity: u32,
    pub readers: u32,
    pub flights: u32,
    pub changes: u32,
    /// How much all numbers weigh together at most; 0 where nothing is weighed.
    pub weight: u64,
    pub key: u64,
}

/// A number that an id has.
#[repr(C)]
#[derive(Debug, Default)]
pub struct Stamped {
    stamp: u64,
    number: u64,
}

/// A load that is under way: which of all it is, and the mark that it was begun with.
#[repr(C)]
#[derive(Debug, Default)]
pub struct Loading {
    number: u64,
    mark: u64,
}

/// A number that came out.
#[repr(C)]
#[derive(Debug, Default)]
pub struct Given {
    id: u64,
    stamp: u64,
    number: u64,
}

/// How much there is.
#[repr(C)]
#[derive(Debug, Default)]
pub struct Counted {
    numbers: u64,
    weight: u64,
    flights: u64,
    changes: u64,
}

/// What a number is put with: when it expires, above 0, what it weighs, and the time before which one that has expired goes
/// first.
#[derive(Clone, Copy, Debug)]
pub struct Terms {
    pub stamp: u64,
    pub weight: u32,
    pub bound: u64,
}

/// What a miss comes to.
#[derive(Clone, Copy, Debug, PartialEq, Eq)]
pub enum Miss {
    /// The id has a number by now.
    Held,
    /// It is loaded.
    Wait,
    /// The caller loads it, by the flight of this number.
    Load(u64),
    /// As many flights are under way as there is room for.
    Full,
}

/// What a number comes to that is to be held.
#[derive(Clone, Copy, Debug, PartialEq, Eq)]
pub enum Put {
    /// It is held, and another came out.
    Held(Option<CameOut>),
    /// It is its caller's own.
    Own,
}

/// A number that came out, and the stamp that it was put with.
#[derive(Clone, Copy, Debug, PartialEq, Eq)]
pub struct CameOut {
    pub number: u64,
    pub stamp: u64,
}

impl Given {
    fn came_out(&self) -> CameOut {
        CameOut { number: sees(self.number), stamp: self.stamp }
    }
}

/// Opens a cache of numbers, and its readers.
pub fn open(shape: &IdShape) -> Result<(Ids, Vec<IdReader>), Fault> {
    library::is_own()?;
    let mut ids = Ids { handle: Handle::empty(), held: 0 };
    // SAFETY: the handle isn't live, and the shape is laid out as the header's.
    done(unsafe { ffi::nr_open_cache(shape, &mut ids.handle) })?;
    let readers = (0..shape.readers).map(|_| ids.open_reader()).collect::<Result<_, _>>()?;
    Ok((ids, readers))
}

/// A reader, which takes no lock, apart from the lines of others: each find writes what it holds.
#[derive(Debug)]
#[repr(align(128))]
pub struct IdReader {
    handle: Handle,
    /// The number that it holds.
    holds: Option<u64>,
}

// SAFETY: a handle may go to another thread, and calls take it by `&mut`, so that two threads never use it at a time.
unsafe impl Send for IdReader {}

impl IdReader {
    /// The number of an id, which doesn't come out until the reader's next find or [`IdReader::let_go`].
    #[inline]
    pub fn find(&mut self, id: u64) -> Option<u64> {
        let mut found = Stamped::default();
        reads_store(self.holds);
        // SAFETY: the handle is live, and what is found is laid out as the header's.
        let code = unsafe { ffi::nr_cache_find(&mut self.handle, id, &mut found) };
        self.holds = (code == ffi::NR_ROWS).then(|| sees(found.number));
        self.holds
    }

    /// The same for who has put the number a moment ago: which number makes room for another doesn't count this as a find.
    pub fn hold(&mut self, id: u64) -> Option<u64> {
        let mut found = Stamped::default();
        reads_store(self.holds);
        // SAFETY: the handle is live, and what is found is laid out as the header's.
        let code = unsafe { ffi::nr_cache_hold(&mut self.handle, id, &mut found) };
        self.holds = (code == ffi::NR_ROWS).then(|| sees(found.number));
        self.holds
    }

    /// Ends its hold, where it has one.
    #[inline]
    pub fn let_go(&mut self) {
        if let Some(held) = self.holds.take() {
            reads_store(Some(held));
            // SAFETY: the handle is live.
            unsafe { ffi::nr_cache_release(&mut self.handle) };
        }
    }
}

impl Drop for IdReader {
    fn drop(&mut self) {
        // SAFETY: the handle is not used after this.
        unsafe { ffi::nr_close_cache_reader(&mut self.handle) }
    }
}

/// All of it but finds, for one thread at a time.
#[derive(Debug)]
pub struct Ids {
    handle: Handle,
    /// How many ids have a number, counted after each call that may change it.
    held: usize,
}

// SAFETY: as of a reader.
unsafe impl Send for Ids {}

impl Ids {
    fn open_reader(&mut self) -> Result<IdReader, Fault> {
        let mut reader = IdReader { handle: Handle::empty(), holds: None };
        // SAFETY: this handle is live, and the reader's is not.
        done(unsafe { ffi::nr_open_cache_reader(&mut self.handle, &mut reader.handle) })?;
        Ok(reader)
    }

    /// Begins the load of an id that has neither a number nor a load.
    pub fn begin(&mut self, id: u64) -> Miss {
        let mut flight = Loading::default();
        // SAFETY: the handle is live, and the flight is laid out as the header's.
        match unsafe { ffi::nr_cache_begin(&mut self.handle, id, 0, &mut flight) } {
            ffi::NR_SEND => Miss::Load(flight.number),
            ffi::NR_WAITING => Miss::Wait,
            ffi::NR_ROWS => Miss::Held,
            _ => Miss::Full,
        }
    }

    /// Ends the load of that flight by a number.
    pub fn land(&mut self, flight: u64, number: u64, terms: Terms) -> Put {
        let (Terms { stamp, weight, bound }, mut given) = (terms, Given::default());
        changes_store(Some(number));
        // SAFETY: the handle is live, and what comes out is laid out as the header's.
        let code = unsafe { ffi::nr_cache_land(&mut self.handle, flight, stamp, number, weight, bound, &mut given) };
        self.came_to(code, &given)
    }

    /// Ends the load of that flight without one.
    pub fn fail(&mut self, flight: u64) {
        // SAFETY: the handle is live, and the flight is laid out as the header's.
        unsafe { ffi::nr_cache_fail(&mut self.handle, flight, &mut Loading::default()) };
    }

    /// Puts a number in place of what an id has. What is loaded for it will not be held.
    pub fn put(&mut self, id: u64, number: u64, terms: Terms) -> Put {
        let (Terms { stamp, weight, bound }, mut given) = (terms, Given::default());
        changes_store(Some(number));
        // SAFETY: the handle is live, and what comes out is laid out as the header's.
        let code = unsafe { ffi::nr_cache_put(&mut self.handle, id, stamp, number, weight, bound, &mut given) };
        self.came_to(code, &given)
    }

    /// The same where the id has that old one still: else nothing happens.
    pub fn swap(&mut self, id: u64, old: u64, number: u64, terms: Terms) -> Put {
        let (Terms { stamp, weight, bound }, mut given) = (terms, Given::default());
        changes_store(Some(number));
        // SAFETY: the handle is live, and what comes out is laid out as the header's.
        let code = unsafe { ffi::nr_cache_swap(&mut self.handle, id, old, stamp, number, weight, bound, &mut given) };
        self.came_to(code, &given)
    }

    /// The number of an id, which can't come out but by a later call of these.
    pub fn look(&mut self, id: u64) -> Option<u64> {
        let mut found = Stamped::default();
        // SAFETY: the handle is live, and what is found is laid out as the header's.
        let code = unsafe { ffi::nr_cache_look(&mut self.handle, id, &mut found) };
        (code == ffi::NR_ROWS).then_some(found.number)
    }

    /// Takes an id's number, and what is loaded for it will not be held: whether it had one.
    pub fn invalidate(&mut self, id: u64) -> bool {
        changes_store(None);
        // SAFETY: the handle is live.
        let code = unsafe { ffi::nr_cache_invalidate(&mut self.handle, id) };
        self.is_evicted(code)
    }

    /// The same of all ids.
    pub fn invalidate_all(&mut self) {
        changes_store(None);
        // SAFETY: the handle is live.
        unsafe { ffi::nr_cache_invalidate_all(&mut self.handle) };
        self.held = 0;
    }

    /// Takes an id's number, and what is loaded for it will be held: whether it had one.
    pub fn evict(&mut self, id: u64) -> bool {
        changes_store(None);
        // SAFETY: the handle is live.
        let code = unsafe { ffi::nr_cache_evict(&mut self.handle, id) };
        self.is_evicted(code)
    }

    /// Begins a change of an id, until whose end nothing that is loaded for it will be held: whether there was room.
    pub fn begin_change(&mut self, id: u64) -> bool {
        // SAFETY: the handle is live.
        unsafe { ffi::nr_cache_begin_change(&mut self.handle, id) == ffi::NR_DONE }
    }

    /// Ends one.
    pub fn end_change(&mut self, id: u64) {
        // SAFETY: the handle is live.
        unsafe { ffi::nr_cache_end_change(&mut self.handle, id) };
    }

    /// A number that nobody can see any more, or none where readers hold all that wait.
    pub fn reap(&mut self) -> Option<CameOut> {
        let mut given = Given::default();
        changes_store(None);
        // SAFETY: the handle is live, and what comes out is laid out as the header's.
        let code = unsafe { ffi::nr_cache_reap(&mut self.handle, &mut given) };
        (code == ffi::NR_GIVEN).then(|| given.came_out())
    }

    /// How many ids have a number.
    pub fn held(&self) -> usize {
        self.held
    }

    /// What their numbers weigh, of a cache where that counts.
    pub fn weight(&mut self) -> u64 {
        self.count().weight
    }

    fn count(&mut self) -> Counted {
        let mut counted = Counted::default();
        // SAFETY: the handle is live, and what is counted is laid out as the header's.
        unsafe { ffi::nr_cache_count(&mut self.handle, &mut counted) };
        counted
    }

    /// What a number comes to by that answer.
    fn came_to(&mut self, code: u32, given: &Given) -> Put {
        self.held = self.count().numbers as usize;
        match code {
            ffi::NR_DONE => Put::Held(None),
            ffi::NR_GIVEN => Put::Held(Some(given.came_out())),
            _ => Put::Own,
        }
    }

    /// Whether a number left its id by that answer.
    fn is_evicted(&mut self, code: u32) -> bool {
        let is_evicted = code == ffi::NR_EVICTED;
        self.held -= usize::from(is_evicted);
        is_evicted
    }
}

impl Drop for Ids {
    fn drop(&mut self) {
        // SAFETY: the handle is not used after this.
        unsafe { ffi::nr_close_cache(&mut self.handle) }
    }
}
