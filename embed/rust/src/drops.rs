//! Work that is done with each of several, of which one may panic.
use std::any::Any;
use std::panic::{catch_unwind, resume_unwind, AssertUnwindSafe};
use std::thread;

/// The first panic of several pieces of work, which goes on once all is done.
#[derive(Default)]
pub(crate) struct FirstPanic(Option<Box<dyn Any + Send>>);

impl FirstPanic {
    /// Does it with each of them, also where it panics with one.
    pub fn of_each<T>(&mut self, all: impl IntoIterator<Item = T>, mut work: impl FnMut(T)) {
        for one in all {
            if let Err(why) = catch_unwind(AssertUnwindSafe(|| work(one))) {
                self.0.get_or_insert(why);
            }
        }
    }

    /// What was made, or what goes on in its place. Then it is dropped: as that unwinds a second panic would end the
    /// program.
    pub fn then<R>(self, made: thread::Result<R>) -> R {
        match (made, self.0) {
            (Ok(made), Some(why)) if !thread::panicking() => {
                _ = catch_unwind(AssertUnwindSafe(|| drop(made)));
                resume_unwind(why)
            }
            (Ok(made), _) => made,
            (Err(why), _) => resume_unwind(why),
        }
    }
}

/// Does it with each of them, also where it panics with one; the first such panic goes on at the end.
pub(crate) fn with_each<T>(all: impl IntoIterator<Item = T>, work: impl FnMut(T)) {
    let mut panic = FirstPanic::default();
    panic.of_each(all, work);
    panic.then(Ok(()));
}

/// Drops each of them.
pub(crate) fn drop_each<T>(doomed: impl IntoIterator<Item = T>) {
    with_each(doomed, drop);
}
