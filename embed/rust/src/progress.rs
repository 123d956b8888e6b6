//! A number that tells how far one thread has come, and who waits for it.
use std::sync::atomic::{AtomicU64, Ordering::Acquire, Ordering::Release};
use std::sync::{Condvar, Mutex, PoisonError};
use std::time::{Duration, Instant};

/// How far the writer's thread has come in the changes that it applies, such as a place in a log. That thread raises the
/// number after its updates, and any thread waits until it is as high as a change that it wants to see: each find that
/// begins after the wait has the updates before the raise, or later ones, or is a hole.
///
/// ```
/// use nr::Progress;
/// use std::{thread, time::Duration};
///
/// let progress = Progress::new();
/// thread::scope(|scope| {
///     let waits = scope.spawn(|| progress.wait(7, Duration::from_secs(60)));
///     progress.reach(9);
///     assert!(waits.join().unwrap());
/// });
/// assert!(!progress.wait(10, Duration::ZERO));
/// ```
#[derive(Debug, Default)]
pub struct Progress {
    reached: AtomicU64,
    waiting: Mutex<()>,
    moved: Condvar,
}

impl Progress {
    /// One that has reached 0.
    pub fn new() -> Progress {
        Progress::default()
    }

    /// The number that was reached.
    pub fn reached(&self) -> u64 {
        self.reached.load(Acquire)
    }

    /// Raises the number, and wakes who waits for it. A lower one changes nothing.
    pub fn reach(&self, number: u64) {
        self.reached.fetch_max(number, Release);
        self.wake();
    }

    /// Sets the number, which may fall: for a thread that begins anew, with numbers of another kind. Who waits then waits
    /// for the new ones.
    pub fn restart(&self, number: u64) {
        self.reached.store(number, Release);
        self.wake();
    }

    /// Waits until the number is reached, but no longer than the limit; tells whether it was. Without a wait this is one
    /// load.
    pub fn wait(&self, number: u64, limit: Duration) -> bool {
        if self.reached() >= number {
            return true;
        }
        let begin = Instant::now();
        let mut waiting = self.waiting.lock().unwrap_or_else(PoisonError::into_inner);
        while self.reached() < number {
            let Some(left) = limit.checked_sub(begin.elapsed()).filter(|left| !left.is_zero()) else { return false };
            waiting = self.moved.wait_timeout(waiting, left).unwrap_or_else(PoisonError::into_inner).0;
        }
        true
    }

    /// Who looked at the number before it changed has the lock until it sleeps.
    fn wake(&self) {
        drop(self.waiting.lock().unwrap_or_else(PoisonError::into_inner));
        self.moved.notify_all();
    }
}
