//! What threads look keys up with.
use crate::ffi::{self, Handle};
use crate::map::Map;
use crate::{Asked, Found, Row, Rows, Sizes, Ticket, Wanted};

/// A reader of a map. Each call that takes a key panics where the map has no such key. One that is dropped is not opened
/// again; [`Writer::return_reader`](crate::Writer::return_reader) gives it back.
#[derive(Debug)]
pub struct Reader {
    handle: Handle,
    pub(crate) map: Map,
    /// It holds a set, which outlives its pin where that was forgotten.
    holds: bool,
}

// SAFETY: a handle may go to another thread, and calls take it by `&mut`, so that two threads never use it at a time.
unsafe impl Send for Reader {}

impl Reader {
    /// A reader of a handle that was just opened.
    pub(crate) fn of(handle: Handle, map: Map) -> Reader {
        Reader { handle, map, holds: false }
    }

    /// The rows of a key, written into `rows`, or none where it is a hole.
    pub fn find<'a>(&mut self, key: u32, rows: &'a mut Rows) -> Option<&'a [Row]> {
        self.release();
        let key = self.map.checked(key);
        // SAFETY: the handle is live and holds nothing, the key was checked, and the rows are laid out as the header's.
        let found = unsafe { ffi::nr_find(&mut self.handle, key, rows) } == ffi::NR_ROWS;
        found.then(|| rows.as_slice())
    }

    /// Finds each of the keys, in their order, as [`Reader::find`] does one, also a key that is wanted twice. The words
    /// that sixteen finds need are loaded before them, which in large maps is faster than single finds. Panics where the
    /// map lacks one of the keys, and then none is found.
    ///
    /// ```
    /// use nr::{Asked, ReaderMap, Row, Shape, Wanted};
    ///
    /// let ReaderMap { mut writer, mut readers } = ReaderMap::open(&Shape::new(3, 5, 1))?;
    /// let Asked::Send(ticket) = readers[0].ask(2) else { panic!() };
    /// writer.fill(ticket, &[Row { a: 3, b: 9 }])?;
    /// let mut wanted = [2, 0, 2].map(Wanted::new);
    /// readers[0].find_each(&mut wanted);
    /// assert_eq!(wanted[0].rows(), Some(&[Row { a: 3, b: 9 }][..]));
    /// assert_eq!(wanted[1].rows(), None);
    /// assert_eq!(wanted[2].rows(), wanted[0].rows());
    /// # Ok::<(), Box<dyn std::error::Error>>(())
    /// ```
    pub fn find_each(&mut self, wanted: &mut [Wanted]) {
        self.release();
        for one in wanted.iter() {
            self.map.checked(one.key());
        }
        // SAFETY: the handle is live and holds nothing, the keys were checked, and there are as many of the header's
        // layout as it is told.
        unsafe { ffi::nr_find_each(&mut self.handle, wanted.as_mut_ptr(), wanted.len()) };
    }

    /// As [`Reader::find_each`], and the rows of all go to one slice, of which each key has as many as the next, in the
    /// keys' order: `rows.len() / wanted.len()`. Where a key's set has more rows than that, which its count tells, the
    /// first ones are there; of the others of its part none is written. For few rows a key this is faster, since what
    /// is written lies together.
    ///
    /// ```
    /// use nr::{Asked, Found, ReaderMap, Row, Shape};
    ///
    /// let ReaderMap { mut writer, mut readers } = ReaderMap::open(&Shape::new(3, 5, 1))?;
    /// let Asked::Send(ticket) = readers[0].ask(2) else { panic!() };
    /// writer.fill(ticket, &[Row { a: 3, b: 9 }, Row { a: 4, b: 9 }])?;
    /// let (mut wanted, mut rows) = ([0, 2].map(Found::new), [Row::default(); 2]);
    /// readers[0].find_each_rows(&mut wanted, &mut rows);
    /// assert_eq!((wanted[0].count(), wanted[1].count()), (None, Some(2)));
    /// assert_eq!(rows[1], Row { a: 3, b: 9 });
    /// # Ok::<(), Box<dyn std::error::Error>>(())
    /// ```
    pub fn find_each_rows(&mut self, wanted: &mut [Found], rows: &mut [Row]) {
        self.release();
        for one in wanted.iter() {
            self.map.checked(one.key());
        }
        let (n, all) = (wanted.len(), rows.len());
        // SAFETY: the handle is live and holds nothing, the keys were checked, and there are as many of the header's
        // layout as it is told, of both.
        unsafe { ffi::nr_find_each_rows(&mut self.handle, wanted.as_mut_ptr(), n, rows.as_mut_ptr(), all) };
    }

    /// As [`Reader::find`], and the reader holds the set until it finds another or makes another call. While the key keeps
    /// that set, the next `find_kept` of it writes no word. A set that is held keeps its slot from being used again, so a
    /// reader that finds nothing for a while has to [`Reader::let_go`]. [`Reader::keeping`] does so by itself.
    pub fn find_kept<'a>(&mut self, key: u32, rows: &'a mut Rows) -> Option<&'a [Row]> {
        let key = self.map.checked(key);
        // SAFETY: the handle is live, the key was checked, and the rows are laid out as the header's.
        self.holds = unsafe { ffi::nr_find_kept(&mut self.handle, key, rows) } == ffi::NR_ROWS;
        self.holds.then(|| rows.as_slice())
    }

    /// Whether the key still has the set that the reader holds since its last [`Reader::find_kept`].
    pub(crate) fn again(&mut self, key: u32) -> bool {
        let key = self.map.checked(key);
        // SAFETY: the handle is live, and the key was checked. Where it holds nothing the answer is another.
        unsafe { ffi::nr_again(&mut self.handle, key) == ffi::NR_ROWS }
    }

    /// Finds by [`Reader::find_kept`], whose hold ends when the value that this gives is dropped.
    ///
    /// ```
    /// # let mut map = nr::ReaderMap::open(&nr::Shape::new(1, 3, 1))?;
    /// # let nr::Asked::Send(ticket) = map.readers[0].ask(0) else { panic!() };
    /// # map.writer.fill(ticket, &[])?;
    /// # let (mut reader, mut rows) = (map.readers.pop().unwrap(), nr::Rows::new());
    /// let mut keeping = reader.keeping();
    /// for _ in 0..1000 {
    ///     assert!(keeping.find(0, &mut rows).is_some());
    /// }
    /// # Ok::<(), Box<dyn std::error::Error>>(())
    /// ```
    pub fn keeping(&mut self) -> Keeping<'_> {
        Keeping { reader: self }
    }

    /// Ends the hold of the last [`Reader::find_kept`], where there is one.
    pub fn let_go(&mut self) {
        self.release();
    }

    /// Requests a key. The first request since it became a hole is the one to be sent. Once the writer was dropped each is
    /// answered [`Asked::Closed`].
    pub fn ask(&mut self, key: u32) -> Asked {
        self.release();
        let key = self.map.checked(key);
        let mut number = 0;
        // SAFETY: the handle is live and holds nothing, and the key was checked.
        match unsafe { ffi::nr_ask(&mut self.handle, key, &mut number) } {
            ffi::NR_SEND => Asked::Send(Ticket::of(self.map.id, key, number)),
            ffi::NR_WAITING => Asked::Waiting,
            ffi::NR_CLOSED => Asked::Closed,
            _ => Asked::Filled,
        }
    }

    /// Holds the set of a key, or none where it is a hole.
    pub fn pin(&mut self, key: u32) -> Option<Pin<'_>> {
        self.release();
        let key = self.map.checked(key);
        let mut count = 0;
        // SAFETY: the handle is live and holds nothing, and the key was checked.
        self.holds = unsafe { ffi::nr_pin(&mut self.handle, key, &mut count) } == ffi::NR_ROWS;
        self.holds.then(|| Pin { reader: self, count })
    }

    /// The sizes of its map.
    pub fn sizes(&mut self) -> Sizes {
        let mut sizes = Sizes::default();
        // SAFETY: the handle is live, and the sizes are laid out as the header's.
        unsafe { ffi::nr_sizes(&mut self.handle, &mut sizes) };
        sizes
    }

    /// The handle, of a reader that holds nothing, for a call of the writer of its map. Panics where it is of another.
    pub(crate) fn for_writer(&mut self, writer: &Map) -> &mut Handle {
        self.release();
        writer.is_of(&self.map);
        &mut self.handle
    }

    fn release(&mut self) {
        if self.holds {
            self.holds = false;
            // SAFETY: the handle is live and holds a set.
            unsafe { ffi::nr_release(&mut self.handle) };
        }
    }
}

impl Drop for Reader {
    fn drop(&mut self) {
        // SAFETY: the handle is this reader's. What it holds is released by this.
        unsafe { ffi::nr_close_reader(&mut self.handle) }
    }
}

/// A reader that holds what it found last, until this is dropped.
#[derive(Debug)]
pub struct Keeping<'a> {
    reader: &'a mut Reader,
}

impl Keeping<'_> {
    /// As [`Reader::find_kept`].
    pub fn find<'r>(&mut self, key: u32, rows: &'r mut Rows) -> Option<&'r [Row]> {
        self.reader.find_kept(key, rows)
    }
}

impl Drop for Keeping<'_> {
    fn drop(&mut self) {
        self.reader.release();
    }
}

/// A held set, which stays as it is whatever happens to its key. Dropping it releases it; where it is forgotten, the
/// reader's next call does.
#[derive(Debug)]
pub struct Pin<'a> {
    reader: &'a mut Reader,
    count: u32,
}

impl Pin<'_> {
    /// How many rows the set has.
    pub fn len(&self) -> usize {
        self.count as usize
    }

    /// Whether it has none.
    pub fn is_empty(&self) -> bool {
        self.count == 0
    }

    /// A row of the set, or none behind the last.
    pub fn row(&mut self, place: usize) -> Option<Row> {
        let mut row = Row::default();
        let place = u32::try_from(place).ok()?;
        // SAFETY: the handle is live and holds a set, since its pin is there, and the row is laid out as the header's.
        let found = unsafe { ffi::nr_row_at(&mut self.reader.handle, place, &mut row) } == ffi::NR_ROWS;
        found.then_some(row)
    }

    /// The rows of the set, written into `rows` in one call.
    pub fn copy<'r>(&mut self, rows: &'r mut Rows) -> &'r [Row] {
        // SAFETY: the handle is live and holds a set, since its pin is there, and the rows are laid out as the header's.
        unsafe { ffi::nr_copy(&mut self.reader.handle, rows) };
        rows.as_slice()
    }

    /// Finds a key again, by one load that writes nothing: whether the key still has the set that the pin holds, put
    /// by the same fill or update. Panics where the map has no such key.
    pub fn again(&mut self, key: u32) -> bool {
        self.reader.again(key)
    }
}

impl Drop for Pin<'_> {
    fn drop(&mut self) {
        self.reader.release();
    }
}
