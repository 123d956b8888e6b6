//! std's locks, sleeps and words, which a search steps where one of its threads uses them.
use super::schedule::Thing;
use super::steps::{self, Op};
use super::tsan;
use std::ops::{Deref, DerefMut};
use std::sync::{self, LockResult, PoisonError, TryLockError, TryLockResult};
use std::time::{Duration, Instant};

#[derive(Debug)]
pub(crate) struct Mutex<T> {
    thing: Thing,
    inner: sync::Mutex<T>,
}

impl<T> Mutex<T> {
    pub fn new(inner: T) -> Mutex<T> {
        Mutex { thing: steps::new_thing(), inner: sync::Mutex::new(inner) }
    }

    pub fn lock(&self) -> LockResult<MutexGuard<'_, T>> {
        steps::make(Op::Lock(self.thing));
        self.locked(self.inner.lock())
    }

    /// No step: what is locked so is locked by no other way but between steps.
    pub fn try_lock(&self) -> TryLockResult<MutexGuard<'_, T>> {
        match self.inner.try_lock() {
            Ok(inner) => Ok(self.locked(Ok(inner))?),
            Err(TryLockError::Poisoned(why)) => Ok(self.locked(Err(why))?),
            Err(TryLockError::WouldBlock) => Err(TryLockError::WouldBlock),
        }
    }

    pub fn get_mut(&mut self) -> LockResult<&mut T> {
        self.inner.get_mut()
    }

    fn locked<'a>(&'a self, inner: LockResult<sync::MutexGuard<'a, T>>) -> LockResult<MutexGuard<'a, T>> {
        tsan::takes(self);
        match inner {
            Ok(inner) => Ok(MutexGuard { lock: self, inner: Some(inner) }),
            Err(why) => Err(PoisonError::new(MutexGuard { lock: self, inner: Some(why.into_inner()) })),
        }
    }
}

impl<T: Default> Default for Mutex<T> {
    fn default() -> Mutex<T> {
        Mutex::new(T::default())
    }
}

#[derive(Debug)]
pub(crate) struct MutexGuard<'a, T> {
    lock: &'a Mutex<T>,
    /// None of a thread that sleeps.
    inner: Option<sync::MutexGuard<'a, T>>,
}

impl<T> Deref for MutexGuard<'_, T> {
    type Target = T;

    fn deref(&self) -> &T {
        self.inner.as_ref().expect("it doesn't sleep")
    }
}

impl<T> DerefMut for MutexGuard<'_, T> {
    fn deref_mut(&mut self) -> &mut T {
        self.inner.as_mut().expect("it doesn't sleep")
    }
}

impl<T> Drop for MutexGuard<'_, T> {
    fn drop(&mut self) {
        if let Some(inner) = self.inner.take() {
            tsan::gives(self.lock);
            drop(inner);
            steps::unlock(self.lock.thing);
        }
    }
}

#[derive(Debug)]
pub(crate) struct Condvar {
    thing: Thing,
    inner: sync::Condvar,
}

impl Condvar {
    pub fn new() -> Condvar {
        Condvar { thing: steps::new_thing(), inner: sync::Condvar::new() }
    }

    pub fn wait<'a, T>(&self, guard: MutexGuard<'a, T>) -> LockResult<MutexGuard<'a, T>> {
        self.sleep(guard, None, |inner| self.inner.wait(inner))
    }

    /// The guard, and nothing of why it woke up.
    pub fn wait_timeout<'a, T>(
        &self,
        guard: MutexGuard<'a, T>,
        limit: Duration,
    ) -> LockResult<(MutexGuard<'a, T>, ())> {
        let wait = |inner| match self.inner.wait_timeout(inner, limit) {
            Ok((inner, _)) => Ok(inner),
            Err(why) => Err(PoisonError::new(why.into_inner().0)),
        };
        match self.sleep(guard, Some(limit), wait) {
            Ok(guard) => Ok((guard, ())),
            Err(why) => Err(PoisonError::new((why.into_inner(), ()))),
        }
    }

    fn sleep<'a, T>(
        &self,
        mut guard: MutexGuard<'a, T>,
        limit: Option<Duration>,
        wait: impl FnOnce(sync::MutexGuard<'a, T>) -> LockResult<sync::MutexGuard<'a, T>>,
    ) -> LockResult<MutexGuard<'a, T>> {
        let lock = guard.lock;
        let inner = guard.inner.take().expect("it doesn't sleep");
        tsan::gives(lock);
        if !steps::is_actor() {
            return lock.locked(wait(inner));
        }
        drop(inner);
        steps::make(Op::Sleep { bell: self.thing, lock: lock.thing, limit });
        lock.locked(lock.inner.lock())
    }

    // A wrong form of the cache calls it.
    #[allow(dead_code)]
    pub fn notify_one(&self) {
        steps::make(Op::Ring { bell: self.thing, all: false });
        self.inner.notify_one();
    }

    pub fn notify_all(&self) {
        steps::make(Op::Ring { bell: self.thing, all: true });
        self.inner.notify_all();
    }
}

#[derive(Debug)]
pub(crate) struct OnceLock<T> {
    thing: Thing,
    inner: sync::OnceLock<T>,
    /// Nobody gets the value before it is told to ThreadSanitizer that its setter gave it.
    told: sync::Mutex<()>,
}

impl<T> OnceLock<T> {
    pub fn new() -> OnceLock<T> {
        OnceLock { thing: steps::new_thing(), inner: sync::OnceLock::new(), told: sync::Mutex::new(()) }
    }

    pub fn get(&self) -> Option<&T> {
        steps::make(Op::Read(self.thing));
        let _told = self.told.lock();
        self.inner.get().inspect(|_| tsan::takes(self))
    }

    pub fn set(&self, value: T) -> Result<(), T> {
        steps::make(Op::Write(self.thing));
        let _told = self.told.lock();
        let set = self.inner.set(value);
        tsan::gives(self);
        set
    }
}

/// Looks once, since each look is a step.
pub(crate) fn look_often(is_so: impl Fn() -> bool) {
    _ = is_so();
}

/// Locks after one look, as it would where another has the lock, since each try is a step.
pub(crate) fn lock_soon<T>(lock: &Mutex<T>, looks_free: impl Fn() -> bool) -> MutexGuard<'_, T> {
    _ = looks_free();
    lock.lock().unwrap_or_else(PoisonError::into_inner)
}

pub(crate) fn now() -> Instant {
    steps::now()
}

/// What the library has of all caches.
const STORES: Thing = Thing::MAX;

pub(crate) fn reads_store(held: Option<u64>) {
    held.into_iter().for_each(|held| tsan::gives(held as *const ()));
    steps::make(Op::Read(STORES));
}

pub(crate) fn changes_store(put: Option<u64>) {
    put.into_iter().for_each(|put| tsan::gives(put as *const ()));
    steps::make(Op::Write(STORES));
}

pub(crate) fn sees(number: u64) -> u64 {
    tsan::takes(number as *const ());
    number
}
