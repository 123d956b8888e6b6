//! Tasks get, and wait for each other's loads, whatever polls them, and whichever of them is cancelled.
use super::cache::{caught, panicking};
use crate::*;
use std::future::Future;
use std::pin::{pin, Pin};
use std::sync::atomic::{AtomicUsize, Ordering::SeqCst};
use std::sync::{Arc, Mutex};
use std::task::{Context, Poll, Wake, Waker};
use std::thread;

fn cache<V>() -> Cache<u64, V> {
    Cache::builder().capacity(10).threads(1).open().unwrap()
}

/// How often a task was woken.
#[derive(Default)]
struct Wakes(AtomicUsize);

impl Wake for Wakes {
    fn wake(self: Arc<Self>) {
        self.0.fetch_add(1, SeqCst);
    }
}

/// A task that is polled by hand.
struct Task<'a, T> {
    future: Option<Pin<Box<dyn Future<Output = T> + 'a>>>,
    wakes: Arc<Wakes>,
}

impl<'a, T> Task<'a, T> {
    fn of(future: impl Future<Output = T> + 'a) -> Task<'a, T> {
        Task { future: Some(Box::pin(future)), wakes: Arc::default() }
    }

    /// What it comes to, if it does by one poll.
    fn poll(&mut self) -> Option<T> {
        let waker = Waker::from(self.wakes.clone());
        match self.future.as_mut().expect("it is there").as_mut().poll(&mut Context::from_waker(&waker)) {
            Poll::Ready(gave) => Some(gave),
            Poll::Pending => None,
        }
    }

    fn cancel(&mut self) {
        self.future = None;
    }

    fn wakes(&self) -> usize {
        self.wakes.0.load(SeqCst)
    }
}

/// Is passed once it is opened.
#[derive(Clone, Default)]
struct Gate(Arc<Mutex<(bool, Option<Waker>)>>);

impl Gate {
    fn open(&self) {
        let mut gate = self.0.lock().unwrap();
        gate.0 = true;
        gate.1.take().into_iter().for_each(Waker::wake);
    }
}

impl Future for Gate {
    type Output = ();

    fn poll(self: Pin<&mut Self>, context: &mut Context<'_>) -> Poll<()> {
        let mut gate = self.0.lock().unwrap();
        gate.1 = Some(context.waker().clone());
        if gate.0 {
            Poll::Ready(())
        } else {
            Poll::Pending
        }
    }
}

async fn never<T>() -> T {
    unreachable!("another task loads")
}

#[test]
fn tasks_wait_for_one_load() {
    let (cache, gate) = (cache(), Gate::default());
    let mut loads = Task::of(cache.get_with_async(&1, async {
        gate.clone().await;
        4
    }));
    let mut others = [(); 3].map(|()| Task::of(cache.get_with_async(&1, never())));
    assert_eq!(loads.poll(), None);
    // A task that is polled twice waits once.
    for task in others.iter_mut().flat_map(|task| [task.poll(), task.poll()]) {
        assert_eq!(task, None);
    }
    gate.open();
    assert_eq!((loads.wakes(), loads.poll()), (1, Some(4)));
    for other in &mut others {
        assert_eq!((other.wakes(), other.poll()), (1, Some(4)));
    }
    assert_eq!(Task::of(cache.get_with_async(&1, never())).poll(), Some(4));
    let CacheStats { loads, waits, hits, .. } = cache.stats();
    assert_eq!((loads, waits, hits), (1, 3, 1));
}

#[test]
fn where_the_loading_task_is_cancelled_or_panics_one_that_waits_loads() {
    for panics in [false, true] {
        let (cache, gate) = (cache(), Gate::default());
        let mut first = Task::of(cache.get_with_async(&1, async {
            gate.clone().await;
            panicking()
        }));
        let mut second = Task::of(cache.get_with_async(&1, async { 5 }));
        let mut third = Task::of(cache.get_with_async(&1, never()));
        assert_eq!((first.poll(), second.poll(), third.poll()), (None, None, None));
        if panics {
            gate.open();
            assert_eq!(caught(|| first.poll()), None);
        } else {
            first.cancel();
        }
        assert_eq!((second.wakes(), third.wakes()), (1, 1));
        assert_eq!((second.poll(), third.poll()), (Some(5), Some(5)));
        assert_eq!(cache.stats().failures, 1);
    }
}

#[test]
fn a_task_that_no_longer_waits_is_not_woken() {
    let (cache, gate) = (cache(), Gate::default());
    let mut loads = Task::of(cache.get_with_async(&1, async {
        gate.clone().await;
        4
    }));
    let mut others = [(); 3].map(|()| Task::of(cache.get_with_async(&1, never())));
    assert_eq!(loads.poll(), None);
    assert!(others.iter_mut().all(|other| other.poll().is_none()));
    others[1].cancel();
    // Another waker takes the place of the first.
    let before = std::mem::take(&mut others[2].wakes);
    assert_eq!(others[2].poll(), None);
    gate.open();
    assert_eq!(loads.poll(), Some(4));
    assert_eq!(others.each_ref().map(Task::wakes), [1, 0, 1]);
    assert_eq!(before.0.load(SeqCst), 0);
}

#[test]
fn a_failure_is_shared_by_tasks() {
    let (cache, gate) = (cache::<u8>(), Gate::default());
    let mut fails = Task::of(cache.try_get_with_async(&1, async {
        gate.clone().await;
        Err("the base is down")
    }));
    let mut waits = Task::of(cache.try_get_with_async(&1, never::<Result<u8, &str>>()));
    // One that fails otherwise loads itself.
    let mut loads = Task::of(cache.try_get_with_async(&1, async { Ok::<u8, u64>(6) }));
    assert!(fails.poll().is_none() && waits.poll().is_none() && loads.poll().is_none());
    gate.open();
    let failed = fails.poll().unwrap().unwrap_err();
    let told = waits.poll().unwrap().unwrap_err();
    assert!(Arc::ptr_eq(&failed, &told) && *told == "the base is down");
    assert_eq!(loads.poll(), Some(Ok(6)));
}

#[test]
fn what_was_loaded_before_an_invalidation_is_its_tasks_alone() {
    let (cache, gate) = (cache(), Gate::default());
    let mut loads = Task::of(cache.get_with_async(&1, async {
        gate.clone().await;
        4
    }));
    assert_eq!(loads.poll(), None);
    assert!(!cache.invalidate(&1));
    gate.open();
    assert_eq!((loads.poll(), cache.get(&1), cache.stats().outdated), (Some(4), None, 1));
}

#[test]
fn threads_and_tasks_wait_for_each_other() {
    let (cache, gate) = (cache(), Gate::default());
    let mut loads = Task::of(cache.get_with_async(&1, async {
        gate.clone().await;
        4
    }));
    assert_eq!(loads.poll(), None);
    thread::scope(|scope| {
        let waits = scope.spawn(|| cache.get_with(&1, || unreachable!()));
        while cache.stats().waits == 0 {
            thread::yield_now();
        }
        gate.open();
        assert_eq!(loads.poll(), Some(4));
        assert_eq!(waits.join().unwrap(), 4);
    });
}

#[test]
fn tasks_may_go_from_thread_to_thread() {
    fn goes<T: Send>(it: T) -> T {
        it
    }
    let cache: Cache<String, Arc<str>> = Cache::builder().open().unwrap();
    let found = goes(cache.try_get_with_async("key", async { Ok::<Arc<str>, String>("value".into()) }));
    let mut found = pin!(found);
    let mut context = Context::from_waker(Waker::noop());
    assert_eq!(found.as_mut().poll(&mut context), Poll::Ready(Ok("value".into())));
    let _request = goes(cache.get_or_request("other"));
    let Sought::UnderWay(wait) = goes(cache.get_or_request("other")) else { panic!("it is under way") };
    assert!(pin!(goes(wait)).poll(&mut context).is_pending());
}

type Waits<const N: usize> = [Task<'static, Result<u64, WaitError>>; N];

/// The request of a key, and those who wait for it.
fn waited_for<const N: usize>(cache: &Cache<u64, u64>) -> (Request<u64, u64>, Waits<N>) {
    let Sought::Missing(request) = cache.get_or_request(&1) else { panic!("nobody has asked before") };
    let waits = [(); N].map(|()| {
        let Sought::UnderWay(wait) = cache.get_or_request(&1) else { panic!("it is under way") };
        assert_eq!(*wait.key(), 1);
        Task::of(wait)
    });
    (request, waits)
}

#[test]
fn tasks_wait_for_a_request() {
    let cache = cache();
    let (request, mut waits) = waited_for::<3>(&cache);
    // A task that is polled twice waits once.
    assert!(waits.iter_mut().flat_map(|wait| [wait.poll(), wait.poll()]).all(|gave| gave.is_none()));
    assert_eq!(cache.stats().waits, 3);
    waits[1].cancel();
    assert!(request.fill(7));
    assert_eq!(waits.each_ref().map(Task::wakes), [1, 0, 1]);
    let [first, _, last] = &mut waits;
    assert_eq!((first.poll().unwrap().unwrap(), last.poll().unwrap().unwrap()), (7, 7));
    assert!(matches!(cache.get_or_request(&1), Sought::Held(7)));
}

#[test]
fn tasks_are_told_why_a_request_failed() {
    let cache = cache();
    let (request, [mut early, mut late]) = waited_for(&cache);
    assert!(early.poll().is_none());
    request.fail("the base is away");
    // One that was not polled before is told too.
    for wait in [&mut early, &mut late] {
        assert_eq!(wait.poll().unwrap().unwrap_err().to_string(), "the base is away");
    }
    let (request, [mut wait]) = waited_for(&cache);
    assert!(wait.poll().is_none());
    drop(request);
    assert!(matches!(wait.poll(), Some(Err(WaitError::Failed(None)))));
}

#[test]
fn what_is_not_held_is_missing_to_tasks_that_wait() {
    let cache = cache();
    let (request, [mut wait]) = waited_for(&cache);
    assert!(wait.poll().is_none() && !cache.invalidate(&1));
    assert!(!request.fill(7));
    assert!(matches!(wait.poll(), Some(Err(WaitError::Missing))));
    let Sought::Missing(request) = cache.get_or_request(&1) else { panic!("nobody loads it") };
    assert!(request.fill(8));
}

#[test]
fn requests_and_waits_are_had_by_a_reader_too() {
    let cache = cache();
    let mut reader = cache.reader().unwrap();
    let Sought::Missing(request) = reader.get_or_request(&1) else { panic!("nobody has asked before") };
    let Sought::UnderWay(wait) = reader.get_or_request(&1) else { panic!("it is under way") };
    // They go on without it, and without other handles of the cache.
    drop((reader, cache));
    let (mut wait, fills) = (Task::of(wait), thread::spawn(move || request.fill(7)));
    assert!(fills.join().unwrap());
    assert_eq!(wait.poll().unwrap().unwrap(), 7);
}

#[test]
fn a_task_that_waits_holds_no_value() {
    let cache: Cache<u64, Arc<()>> = cache();
    let value = Arc::new(());
    let Sought::Missing(request) = cache.get_or_request(&1) else { panic!("nobody has asked before") };
    let Sought::UnderWay(wait) = cache.get_or_request(&1) else { panic!("it is under way") };
    let mut wait = Task::of(wait);
    assert!(wait.poll().is_none() && request.fill(value.clone()));
    assert!(cache.invalidate(&1));
    assert_eq!(Arc::strong_count(&value), 1);
    assert!(matches!(wait.poll(), Some(Err(WaitError::Missing))));
}
