//! What ThreadSanitizer is told of orders that it doesn't see: those of std's locks, which are built without it, and
//! those of the library's calls. In a build without it nothing is told.

/// What this thread did comes before whatever those do later who take it.
pub(super) fn gives<T>(at: *const T) {
    told::gives(at.cast());
}

/// What those did who gave it comes before whatever this thread does later.
pub(super) fn takes<T>(at: *const T) {
    told::takes(at.cast());
}

#[cfg(not(nr_tsan))]
mod told {
    pub fn gives(_: *const ()) {}

    pub fn takes(_: *const ()) {}
}

#[cfg(nr_tsan)]
mod told {
    use std::ffi::c_void;

    extern "C" {
        fn __tsan_acquire(at: *mut c_void);
        fn __tsan_release(at: *mut c_void);
    }

    pub fn gives(at: *const ()) {
        // SAFETY: the address is a name, at which nothing is read.
        unsafe { __tsan_release(at.cast_mut().cast()) }
    }

    pub fn takes(at: *const ()) {
        // SAFETY: as above.
        unsafe { __tsan_acquire(at.cast_mut().cast()) }
    }
}
