//! The two ends of the library's queue, of numbers that aren't yet anybody's tickets.
use crate::answers::done;
use crate::ffi::{self, Handle};
use crate::Fault;

/// What one thread posts with.
#[derive(Debug)]
pub(crate) struct In(Handle);

/// What one thread takes with.
#[derive(Debug)]
pub(crate) struct Out(Handle);

// SAFETY: a handle may go to another thread, and calls take it by `&mut`, so that two threads never use it at a time.
unsafe impl Send for In {}
// SAFETY: as above.
unsafe impl Send for Out {}

/// Opens a queue. Refused with `BadSize` or `NoMemory`.
pub(crate) fn open(keys: u32, capacity: u32, posters: u32) -> Result<(Out, Vec<In>), Fault> {
    let mut handle = Handle::empty();
    // SAFETY: the handle isn't live.
    done(unsafe { ffi::nr_open_queue(keys, capacity, posters, &mut handle) })?;
    let mut taker = Out(handle);
    let posters = (0..posters).map(|_| taker.open_poster()).collect::<Result<_, _>>()?;
    Ok((taker, posters))
}

impl In {
    /// Refused with `Full` or `InTheWay`. The key is below those that the queue was opened with.
    pub fn post(&mut self, key: u32, number: u64) -> Result<(), Fault> {
        // SAFETY: the handle is live, and the key is the caller's.
        done(unsafe { ffi::nr_post(&mut self.0, key, number) })
    }
}

impl Drop for In {
    fn drop(&mut self) {
        // SAFETY: the handle is this poster's.
        unsafe { ffi::nr_close_poster(&mut self.0) }
    }
}

impl Out {
    /// The key and the number at the front. Refused with `Empty` or `InTheWay`.
    pub fn take(&mut self) -> Result<(u32, u64), Fault> {
        let (mut key, mut number) = (0, 0);
        // SAFETY: the handle is live.
        done(unsafe { ffi::nr_take(&mut self.0, &mut key, &mut number) })?;
        Ok((key, number))
    }

    fn open_poster(&mut self) -> Result<In, Fault> {
        let mut handle = Handle::empty();
        // SAFETY: the taker's handle is live, and the other is not.
        done(unsafe { ffi::nr_open_poster(&mut self.0, &mut handle) })?;
        Ok(In(handle))
    }
}

impl Drop for Out {
    fn drop(&mut self) {
        // SAFETY: the handle is this taker's.
        unsafe { ffi::nr_close_taker(&mut self.0) }
    }
}
