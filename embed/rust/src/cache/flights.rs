//! Loads that are under way.
use super::failure::Failure;
use super::sync::{look_often, now, Condvar, Mutex, MutexGuard, OnceLock};
use crate::drops::with_each;
use std::future::Future;
use std::pin::Pin;
use std::sync::{Arc, PoisonError};
use std::task::{Context, Poll, Waker};
use std::time::Instant;

/// What those share who wait for one load: its loader ends it, or who outdates it.
pub(super) struct Flight {
    end: OnceLock<End>,
    waiting: Mutex<Waiting>,
    ended: Condvar,
}

/// Who waits for the end of a flight.
#[derive(Default)]
struct Waiting {
    /// Whether a thread sleeps until then.
    sleeps: bool,
    /// The tasks that are to be woken, each with a number of its own.
    tasks: Vec<(u64, Waker)>,
    tasks_ever: u64,
}

/// How a load ended for those who wait.
#[derive(Clone)]
pub(super) enum End {
    Loaded,
    /// What it gave is too heavy to be held, so who waited loads alone.
    TooHeavy,
    Failed(Failure),
    /// What it gives will not be held, so nobody waits for it any more.
    Outdated,
}

impl Flight {
    pub fn new() -> Flight {
        Flight { end: OnceLock::new(), waiting: Mutex::default(), ended: Condvar::new() }
    }

    pub fn has_ended(&self) -> bool {
        self.end.get().is_some()
    }

    /// Waits until the load has ended: how it has, by that time.
    pub fn wait(&self, until: Option<Instant>) -> Option<End> {
        look_often(|| self.has_ended());
        let mut waiting = self.waiting();
        while !self.has_ended() {
            waiting.sleeps = true;
            waiting = self.sleep(waiting, until)?;
        }
        self.end.get().cloned()
    }

    /// The end of the load, for a task.
    pub fn ended(self: Arc<Self>) -> Ended {
        Ended { flight: self, number: None }
    }

    /// Sleeps until something wakes it, or nothing has by that time.
    fn sleep<'a>(&self, waiting: MutexGuard<'a, Waiting>, until: Option<Instant>) -> Option<MutexGuard<'a, Waiting>> {
        let Some(until) = until else {
            return Some(self.ended.wait(waiting).unwrap_or_else(PoisonError::into_inner));
        };
        let left = until.saturating_duration_since(now());
        if left.is_zero() {
            return None;
        }
        Some(self.ended.wait_timeout(waiting, left).unwrap_or_else(PoisonError::into_inner).0)
    }

    pub fn end(&self, how: End) {
        // A flight has one end, whose first teller is right.
        _ = self.end.set(how);
        // Who looked before that sleeps by now, and who looks later sees it. A wake-up calls the system, also for nobody.
        let Waiting { sleeps, tasks, .. } = std::mem::take(&mut *self.waiting());
        if sleeps {
            self.ended.notify_all();
        }
        with_each(tasks, |(_, task)| task.wake());
    }

    fn waiting(&self) -> MutexGuard<'_, Waiting> {
        self.waiting.lock().unwrap_or_else(PoisonError::into_inner)
    }
}

/// How a flight ended, once it has. Dropped before that it wakes nobody.
pub(super) struct Ended {
    flight: Arc<Flight>,
    /// That of its task among those that wait.
    number: Option<u64>,
}

impl Future for Ended {
    type Output = End;

    fn poll(mut self: Pin<&mut Self>, context: &mut Context<'_>) -> Poll<End> {
        let flight = Arc::clone(&self.flight);
        let mut waiting = flight.waiting();
        if let Some(end) = flight.end.get() {
            return Poll::Ready(end.clone());
        }
        let number = *self.number.get_or_insert_with(|| {
            waiting.tasks_ever += 1;
            waiting.tasks_ever
        });
        let task = context.waker();
        match waiting.tasks.iter_mut().find(|(other, _)| *other == number) {
            Some((_, known)) => known.clone_from(task),
            None => waiting.tasks.push((number, task.clone())),
        }
        Poll::Pending
    }
}

impl Drop for Ended {
    fn drop(&mut self) {
        if let Some(number) = self.number {
            let mut waiting = self.flight.waiting();
            let at = waiting.tasks.iter().position(|(other, _)| *other == number);
            let task = at.map(|at| waiting.tasks.swap_remove(at));
            // A waker's drop is its runtime's code.
            drop(waiting);
            drop(task);
        }
    }
}

/// Spreads ids over all numbers, also where a hasher gives small ones.
pub(super) fn spread(id: u64) -> u64 {
    id.wrapping_mul(0x9e37_79b9_7f4a_7c15)
}
