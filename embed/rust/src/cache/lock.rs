//! The lock of a part, under which keys are compared, and keys and values cloned for threads without a reader.
use super::sync::{lock_soon, Mutex, MutexGuard};
use std::ops::{Deref, DerefMut};
use std::sync::atomic::{AtomicUsize, Ordering::Relaxed};
use std::sync::PoisonError;

/// A lock that a thread takes once at a time: where an `Eq` or a `Clone` that runs under it calls the same cache, the call
/// panics and doesn't wait for its own thread. The holder's word lies beside the mutex and what that guards, so that they come
/// from another processor together.
#[repr(C)]
pub(super) struct Lock<T> {
    /// The thread that has it, or `NOBODY`.
    holder: AtomicUsize,
    inner: Mutex<T>,
}

/// The lock's holder, until this is dropped. What was under way where it panicked is whole.
pub(super) struct Locked<'a, T> {
    holder: &'a AtomicUsize,
    inner: MutexGuard<'a, T>,
}

const NOBODY: usize = 0;

impl<T> Lock<T> {
    pub fn new(inner: T) -> Lock<T> {
        Lock { holder: AtomicUsize::new(NOBODY), inner: Mutex::new(inner) }
    }

    pub fn lock(&self) -> Locked<'_, T> {
        let thread = this_thread();
        // To sleep until its holder wakes a thread takes longer than a holder mostly has it.
        let inner = lock_soon(&self.inner, || self.looks_free(thread));
        self.holder.store(thread, Relaxed);
        Locked { holder: &self.holder, inner }
    }

    /// Whether nobody seems to have it, as that thread asks, which doesn't have it itself.
    fn looks_free(&self, thread: usize) -> bool {
        let holder = self.holder.load(Relaxed);
        // No other thread ever writes this one's number there.
        assert!(holder != thread, "an `Eq` of a cache's keys, or a `Clone` of its keys or values, calls the cache");
        holder == NOBODY
    }

    pub fn get_mut(&mut self) -> &mut T {
        self.inner.get_mut().unwrap_or_else(PoisonError::into_inner)
    }
}

impl<T> Deref for Locked<'_, T> {
    type Target = T;

    fn deref(&self) -> &T {
        &self.inner
    }
}

impl<T> DerefMut for Locked<'_, T> {
    fn deref_mut(&mut self) -> &mut T {
        &mut self.inner
    }
}

impl<T> Drop for Locked<'_, T> {
    fn drop(&mut self) {
        // While the lock is still this thread's.
        self.holder.store(NOBODY, Relaxed);
    }
}

/// A number that no other thread has that is alive: the address of what each has for itself.
fn this_thread() -> usize {
    thread_local!(static OWN: u8 = const { 0 });
    OWN.with(|own| std::ptr::from_ref(own).addr())
}
