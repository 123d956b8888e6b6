//! A service whose workers share a cache in front of a database that changes. No worker has a reader in hand, and there
//! are more of them than the cache has readers.
use nr::Cache;
use std::collections::HashMap;
use std::sync::atomic::{AtomicU64, Ordering::SeqCst};
use std::sync::{mpsc, Arc, Mutex};
use std::thread;

const USERS: u64 = 100;
const WORKERS: usize = 8;

/// A stand-in for a database: how often each user has written.
#[derive(Default)]
struct Base {
    writes: Mutex<HashMap<u64, u64>>,
    queries: AtomicU64,
}

impl Base {
    fn query(&self, user: u64) -> Result<Arc<str>, String> {
        if user >= USERS {
            return Err(format!("there is no user {user}"));
        }
        self.queries.fetch_add(1, SeqCst);
        Ok(self.writes.lock().unwrap().get(&user).copied().unwrap_or(0).to_string().into())
    }

    fn write(&self, user: u64) -> u64 {
        let mut writes = self.writes.lock().unwrap();
        let count = writes.entry(user).or_default();
        *count += 1;
        *count
    }
}

enum Job {
    Read(u64),
    Write(u64),
}

struct Service {
    base: Base,
    cache: Cache<u64, Arc<str>>,
}

impl Service {
    fn does(&self, job: Job) {
        match job {
            Job::Read(user) => match self.cache.try_get_with(&user, || self.base.query(user)) {
                Ok(writes) => assert!(writes.parse::<u64>().is_ok()),
                Err(why) => assert_eq!(*why, format!("there is no user {user}")),
            },
            Job::Write(user) => {
                let count = self.base.write(user);
                // After the write: a query that began before it may answer its caller, but is not kept.
                self.cache.invalidate(&user);
                let read = self.cache.try_get_with(&user, || self.base.query(user)).expect("the user is there");
                assert!(read.parse::<u64>().unwrap() >= count, "an old answer");
            }
        }
    }
}

fn main() -> Result<(), nr::Fault> {
    let cache = Cache::builder().max_capacity(50).threads(4).open()?;
    let service = Service { base: Base::default(), cache };
    let (send, jobs) = mpsc::channel();
    let jobs = Mutex::new(jobs);
    thread::scope(|scope| {
        for _ in 0..WORKERS {
            scope.spawn(|| loop {
                let Ok(job) = jobs.lock().unwrap().recv() else { break };
                service.does(job);
            });
        }
        for turn in 0..20_000 {
            let user = turn * turn % (USERS + 1);
            send.send(if turn % 10 == 0 && user < USERS { Job::Write(user) } else { Job::Read(user) }).unwrap();
        }
        drop(send);
    });
    let held = service.cache.len();
    assert!(held <= 50 && service.base.queries.load(SeqCst) < 20_000);
    println!("the service has answered");
    Ok(())
}
