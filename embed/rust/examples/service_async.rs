//! A service of tokio's tasks that share a cache in front of a database that changes. Any number of them wait for one
//! query, one that takes too long is cancelled, and what has expired goes though nobody writes.
//!
//! The crate needs no runtime, so tokio stands in the service's own Cargo.toml, with its features `macros`,
//! `rt-multi-thread` and `time`.
use nr::Cache;
use std::collections::HashMap;
use std::sync::atomic::{AtomicU64, Ordering::SeqCst};
use std::sync::{Arc, Mutex};
use std::time::Duration;
use tokio::time::{interval, sleep, timeout};

const USERS: u64 = 100;
const TASKS: u64 = 200;
const REQUESTS: u64 = 100;

/// A stand-in for a database: how often each user has written.
#[derive(Default)]
struct Base {
    writes: Mutex<HashMap<u64, u64>>,
    queries: AtomicU64,
}

impl Base {
    async fn query(&self, user: u64) -> Result<Arc<str>, String> {
        if user >= USERS {
            return Err(format!("there is no user {user}"));
        }
        self.queries.fetch_add(1, SeqCst);
        let count = self.writes.lock().unwrap().get(&user).copied().unwrap_or(0);
        // The answer comes later than what it tells.
        sleep(Duration::from_millis(1)).await;
        Ok(count.to_string().into())
    }

    async fn write(&self, user: u64) -> u64 {
        sleep(Duration::from_micros(100)).await;
        let mut writes = self.writes.lock().unwrap();
        let count = writes.entry(user).or_default();
        *count += 1;
        *count
    }
}

struct Service {
    base: Base,
    cache: Cache<u64, Arc<str>>,
}

impl Service {
    /// Where its task is cancelled while it queries, one of those that wait for that query makes it.
    async fn read(&self, user: u64) -> Result<Arc<str>, Arc<String>> {
        self.cache.try_get_with_async(&user, self.base.query(user)).await
    }

    async fn write(&self, user: u64) -> u64 {
        let count = self.base.write(user).await;
        // After the write: a query that began before it may answer its caller, but nobody waits for it any more.
        self.cache.invalidate(&user);
        count
    }

    /// Answers a request, if that doesn't take too long: whether it has.
    async fn answers(&self, turn: u64) -> bool {
        let user = turn * turn % (USERS + 1);
        if turn % 10 == 0 && user < USERS {
            let count = self.write(user).await;
            let read = self.read(user).await.expect("the user is there");
            assert!(read.parse::<u64>().unwrap() >= count, "an old answer");
            return true;
        }
        // Some have little patience.
        match timeout(Duration::from_micros(turn % 5 * 700), self.read(user)).await {
            Ok(Ok(writes)) => assert!(writes.parse::<u64>().is_ok()),
            Ok(Err(why)) => assert_eq!(*why, format!("there is no user {user}")),
            Err(_) => return false,
        }
        true
    }
}

/// What has expired goes, and what left is freed, also while nothing is written.
async fn cleans(service: Arc<Service>) {
    let mut now_and_then = interval(Duration::from_millis(10));
    loop {
        now_and_then.tick().await;
        service.cache.run_pending_tasks();
    }
}

async fn requests(service: Arc<Service>, task: u64) -> u64 {
    let mut answered = 0;
    for request in 0..REQUESTS {
        answered += u64::from(service.answers(task * REQUESTS + request).await);
    }
    answered
}

#[tokio::main(worker_threads = 4)]
async fn main() -> Result<(), nr::Fault> {
    // Two readers serve all tasks: a thread of tokio's that has none looks under a lock.
    let cache = Cache::builder().max_capacity(50).threads(2).time_to_live(Duration::from_secs(60)).open()?;
    let service = Arc::new(Service { base: Base::default(), cache });
    let cleaner = tokio::spawn(cleans(service.clone()));
    let tasks: Vec<_> = (0..TASKS).map(|task| tokio::spawn(requests(service.clone(), task))).collect();
    let mut answered = 0;
    for task in tasks {
        answered += task.await.expect("no request panics");
    }
    cleaner.abort();
    let (queries, held) = (service.base.queries.load(SeqCst), service.cache.len());
    assert!(answered > 0 && queries < TASKS * REQUESTS && held <= 50, "{answered} answered by {queries} queries");
    println!("the service has answered");
    Ok(())
}
