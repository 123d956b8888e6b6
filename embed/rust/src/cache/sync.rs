//! What a cache's threads share their steps by: each lock, sleep, wake-up and word that one thread reads and another
//! writes, where a wait hangs on it, has its name from here, and so have the calls of the library that no lock orders.
//! They are std's and nothing, but in a build of the tests, which step them.
#[cfg(test)]
pub(crate) use crate::tests::sync::{
    changes_store, lock_soon, look_often, now, reads_store, sees, Condvar, Mutex, MutexGuard, OnceLock,
};
#[cfg(not(test))]
pub(crate) use plain::{
    changes_store, lock_soon, look_often, now, reads_store, sees, Condvar, Mutex, MutexGuard, OnceLock,
};

#[cfg(not(test))]
mod plain {
    pub(crate) use std::sync::{Condvar, Mutex, MutexGuard, OnceLock};
    use std::sync::{PoisonError, TryLockError};
    use std::time::Instant;

    /// How often who waits looks before it sleeps: about as long as a sleep and a wake-up take.
    const LOOKS: u32 = 100;

    /// Looks until it is so, or has looked often.
    pub(crate) fn look_often(is_so: impl Fn() -> bool) {
        for _ in 0..LOOKS {
            if is_so() {
                break;
            }
            std::hint::spin_loop();
        }
    }

    /// Takes a lock, also after a panic. Where another has it, it tries again when the lock looks free, and sleeps after a
    /// hundred looks.
    #[inline]
    pub(crate) fn lock_soon<T>(lock: &Mutex<T>, looks_free: impl Fn() -> bool) -> MutexGuard<'_, T> {
        try_lock(lock).unwrap_or_else(|| lock_later(lock, looks_free))
    }

    #[inline]
    fn try_lock<T>(lock: &Mutex<T>) -> Option<MutexGuard<'_, T>> {
        match lock.try_lock() {
            Ok(guard) => Some(guard),
            Err(TryLockError::Poisoned(why)) => Some(why.into_inner()),
            Err(TryLockError::WouldBlock) => None,
        }
    }

    #[cold]
    fn lock_later<T>(lock: &Mutex<T>, looks_free: impl Fn() -> bool) -> MutexGuard<'_, T> {
        for _ in 0..LOOKS {
            let locked = if looks_free() { try_lock(lock) } else { None };
            if let Some(guard) = locked {
                return guard;
            }
            std::hint::spin_loop();
        }
        lock.lock().unwrap_or_else(PoisonError::into_inner)
    }

    /// The time by which waits end, and entries expire.
    pub(crate) fn now() -> Instant {
        Instant::now()
    }

    /// Stands before a call that takes no lock, and that ends a reader's hold of that number, where it has one.
    #[inline(always)]
    pub(crate) fn reads_store(_held: Option<u64>) {}

    /// Stands before a call after which finds find something else, as that number, or which asks what they hold.
    #[inline(always)]
    pub(crate) fn changes_store(_put: Option<u64>) {}

    /// Stands where a number is found, or came out.
    #[inline(always)]
    pub(crate) fn sees(number: u64) -> u64 {
        number
    }
}
