//! A number that tells how far one thread has come, and who is woken when it has come as far as they need.
use std::collections::BTreeMap;
use std::sync::atomic::{AtomicU64, Ordering::Acquire, Ordering::Relaxed, Ordering::Release};
use std::sync::{Mutex, MutexGuard, PoisonError};
use std::task::Waker;

/// Who waits, by the number that they need, and then by when they came.
type Waiting = BTreeMap<(u64, u64), Waker>;

#[derive(Default)]
pub struct Progress {
    reached: AtomicU64,
    waiting: Mutex<Waiting>,
    came: AtomicU64,
}

/// One who waits, while it is there.
pub struct Awaited<'a> {
    progress: &'a Progress,
    at: (u64, u64),
}

impl Progress {
    pub fn reached(&self) -> u64 {
        self.reached.load(Acquire)
    }

    /// Raises the number. A lower one changes nothing.
    pub fn reach(&self, number: u64) {
        self.reached.fetch_max(number, Release);
        self.wake();
    }

    /// Sets the number, which may fall: for a thread that begins anew.
    pub fn restart(&self, number: u64) {
        self.reached.store(number, Release);
        self.wake();
    }

    /// None where the number is reached. Else the waker is woken once it is, also where it falls again.
    pub fn await_number(&self, number: u64, waker: &Waker) -> Option<Awaited<'_>> {
        let mut waiting = (self.reached() < number).then(|| self.waiting())?;
        // Who raises it from now on finds who waits.
        if self.reached() >= number {
            return None;
        }
        let at = (number, self.came.fetch_add(1, Relaxed));
        waiting.insert(at, waker.clone());
        Some(Awaited { progress: self, at })
    }

    fn waiting(&self) -> MutexGuard<'_, Waiting> {
        self.waiting.lock().unwrap_or_else(PoisonError::into_inner)
    }

    fn wake(&self) {
        let mut waiting = self.waiting();
        let later = waiting.split_off(&(self.reached().saturating_add(1), 0));
        let woken = std::mem::replace(&mut *waiting, later);
        drop(waiting);
        woken.into_values().for_each(Waker::wake);
    }
}

impl Awaited<'_> {
    pub fn number(&self) -> u64 {
        self.at.0
    }
}

impl Drop for Awaited<'_> {
    fn drop(&mut self) {
        self.progress.waiting().remove(&self.at);
    }
}

#[cfg(test)]
mod tests {
    use super::*;
    use std::sync::{atomic::AtomicUsize, Arc};
    use std::task::Wake;

    #[derive(Default)]
    struct Woken(AtomicUsize);

    impl Wake for Woken {
        fn wake(self: Arc<Self>) {
            self.0.fetch_add(1, Relaxed);
        }
    }

    #[test]
    fn who_waits_is_woken_once_the_number_is_reached() {
        let (progress, woken) = (Progress::default(), Arc::new(Woken::default()));
        let (waker, times) = (Waker::from(Arc::clone(&woken)), || woken.0.load(Relaxed));
        assert!(progress.await_number(0, &waker).is_none());
        let awaited = [5, 7, 7, 9].map(|number| progress.await_number(number, &waker).unwrap());
        progress.reach(4);
        assert_eq!(times(), 0);
        progress.reach(7);
        assert_eq!((times(), progress.reached()), (3, 7));
        progress.reach(6);
        assert!(progress.await_number(7, &waker).is_none());
        // Who has gone is not woken.
        drop(awaited);
        progress.reach(9);
        assert_eq!(times(), 3);
    }

    #[test]
    fn after_a_restart_the_number_is_waited_for_anew() {
        let (progress, woken) = (Progress::default(), Arc::new(Woken::default()));
        let waker = Waker::from(Arc::clone(&woken));
        progress.reach(9);
        progress.restart(2);
        let awaited = progress.await_number(4, &waker).unwrap();
        assert_eq!(awaited.number(), 4);
        progress.restart(4);
        assert_eq!((woken.0.load(Relaxed), progress.reached()), (1, 4));
    }
}
