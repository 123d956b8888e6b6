//! Calls that give sets back, so that what their rows refer to can be freed.
use crate::answers::done;
use crate::ffi::{self, Handle};
use crate::{Delta, Fault, Row, Rows, Ticket, Unfilled, Writer};

/// What a reclaiming update or replacement did.
#[derive(Clone, Copy, Debug, PartialEq, Eq)]
pub enum Reclaimed<'a> {
    /// The key has the new rows. Beside it the set that their slot had before, where one came back.
    Done(Option<&'a [Row]>),
    /// The key isn't filled, so there was nothing to change.
    Dropped,
}

/// What a reap found.
#[derive(Clone, Copy, Debug, PartialEq, Eq)]
pub enum Reaped<'a> {
    /// A set that waited and that no reader held.
    Set(&'a [Row]),
    /// Sets wait, and readers hold each of them.
    Held,
    /// No set waits.
    Nothing,
}

/// Calls for rows that refer to more, as by an index in a store. A set that was replaced or evicted waits in its slot. It
/// comes back when one of these calls takes that slot, when [`Writer::reap`] finds it, or out of the [`Remains`] of its
/// map: once, and when no reader holds it and none can find it, so that what its rows refer to can be freed. Where
/// [`Writer::fill`], [`Writer::update`] or [`Writer::replace`] takes the slot, its set doesn't come back.
///
/// At most as many sets wait as there are slots; a reap after each write keeps them few.
///
/// ```
/// use nr::{Asked, Reaped, ReaderMap, Reclaimed, Row, Rows, Shape};
///
/// let ReaderMap { mut writer, mut readers } = ReaderMap::open(&Shape::new(1, 2, 1))?;
/// let [one, two, three] = [1, 2, 3].map(|place| [Row { a: 0, b: place }]);
/// let mut had = Rows::new();
/// let Asked::Send(ticket) = readers[0].ask(0) else { panic!() };
/// assert_eq!(writer.fill_reclaiming(ticket, &one, &mut had)?, None);
/// assert_eq!(writer.replace_reclaiming(0, &two, &mut had)?, Reclaimed::Done(None));
/// assert_eq!(writer.replace_reclaiming(0, &three, &mut had)?, Reclaimed::Done(Some(&one)));
/// assert_eq!(writer.reap(&mut had), Reaped::Set(&two));
/// assert_eq!(writer.reap(&mut had), Reaped::Nothing);
///
/// for reader in readers {
///     writer.return_reader(reader).expect("there is memory");
/// }
/// let mut remains = writer.take_apart().expect("each reader is back");
/// assert_eq!(remains.next_into(&mut had), Some(&three[..]));
/// assert_eq!(remains.next_into(&mut had), None);
/// # Ok::<(), Box<dyn std::error::Error>>(())
/// ```
impl Writer {
    /// As [`Writer::fill`], and writes the set that the slot had into `had`, where it had one that didn't come back
    /// before.
    pub fn fill_reclaiming<'a>(
        &mut self,
        ticket: Ticket,
        rows: &[Row],
        had: &'a mut Rows,
    ) -> Result<Option<&'a [Row]>, Unfilled> {
        self.map.owns(&ticket);
        let (key, number) = (ticket.key(), ticket.number());
        // SAFETY: the handle is live, the key is one of its map's, there are as many rows as it is told, and those that
        // come back are laid out as the header's.
        let code = unsafe { ffi::nr_fill_reclaiming(&mut self.handle, key, number, rows.as_ptr(), rows.len(), had) };
        given(code, had).map_err(|fault| Unfilled { fault, ticket })
    }

    /// As [`Writer::update`], and writes the set that the slot had into `had`, where it had one that didn't come back
    /// before. The set that the update changes waits then.
    pub fn update_reclaiming<'a>(
        &mut self,
        key: u32,
        deltas: &[Delta],
        had: &'a mut Rows,
    ) -> Result<Reclaimed<'a>, Fault> {
        let key = self.map.checked(key);
        // SAFETY: the handle is live, the key was checked, there are as many signed rows as it is told, and the rows
        // that come back are laid out as the header's.
        let code = unsafe { ffi::nr_update_reclaiming(&mut self.handle, key, deltas.as_ptr(), deltas.len(), had) };
        reclaimed(code, had)
    }

    /// As [`Writer::replace`], and writes the set that the slot had into `had`, where it had one that didn't come back
    /// before. The set that is replaced waits then.
    pub fn replace_reclaiming<'a>(
        &mut self,
        key: u32,
        rows: &[Row],
        had: &'a mut Rows,
    ) -> Result<Reclaimed<'a>, Fault> {
        let key = self.map.checked(key);
        // SAFETY: the handle is live, the key was checked, there are as many rows as it is told, and those that come
        // back are laid out as the header's.
        let code = unsafe { ffi::nr_replace_reclaiming(&mut self.handle, key, rows.as_ptr(), rows.len(), had) };
        reclaimed(code, had)
    }

    /// Writes a set that waits and that no reader holds into `had`, before its slot is taken: the oldest, but for those
    /// that a reader held at the last look.
    pub fn reap<'a>(&mut self, had: &'a mut Rows) -> Reaped<'a> {
        // SAFETY: the handle is live, and the rows are laid out as the header's.
        match unsafe { ffi::nr_reap(&mut self.handle, had) } {
            ffi::NR_GIVEN => Reaped::Set(had.as_slice()),
            ffi::NR_HELD => Reaped::Held,
            _ => Reaped::Nothing,
        }
    }

    /// Ends a map whose readers were all given back by [`Writer::return_reader`]. Where one wasn't, the writer comes
    /// back; one that was dropped never is.
    pub fn take_apart(mut self) -> Result<Remains, Writer> {
        let mut remains = Handle::empty();
        // SAFETY: the writer's handle is live, and the other is not. Where this is done, the writer's is closed, as it
        // may be once more.
        match unsafe { ffi::nr_take_apart(&mut self.handle, &mut remains) } {
            ffi::NR_DONE => Ok(Remains(remains)),
            _ => Err(self),
        }
    }
}

fn given(code: u32, had: &Rows) -> Result<Option<&[Row]>, Fault> {
    match code {
        ffi::NR_GIVEN => Ok(Some(had.as_slice())),
        code => done(code).map(|()| None),
    }
}

fn reclaimed(code: u32, had: &Rows) -> Result<Reclaimed<'_>, Fault> {
    match code {
        ffi::NR_DROPPED => Ok(Reclaimed::Dropped),
        code => given(code, had).map(Reclaimed::Done),
    }
}

/// What is left of a map that was taken apart: each set, filled keys' sets among them, that no call gave out or
/// overwrote.
#[derive(Debug)]
pub struct Remains(Handle);

// SAFETY: a handle may go to another thread, and calls take it by `&mut`, so that two threads never use it at a time.
unsafe impl Send for Remains {}

impl Remains {
    /// The next set, written into `rows`, or none once all came out.
    pub fn next_into<'a>(&mut self, rows: &'a mut Rows) -> Option<&'a [Row]> {
        // SAFETY: the handle is live, and the rows are laid out as the header's.
        let came = unsafe { ffi::nr_next(&mut self.0, rows) } == ffi::NR_GIVEN;
        came.then(|| rows.as_slice())
    }
}

impl Drop for Remains {
    fn drop(&mut self) {
        // SAFETY: the handle is this one's.
        unsafe { ffi::nr_close_remains(&mut self.0) }
    }
}
