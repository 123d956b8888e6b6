//! A cache in front of a slow query: four threads get the same users, each of which is queried once until it changes.
use nr::Cache;
use std::sync::atomic::{AtomicU64, Ordering::SeqCst};
use std::thread;
use std::time::Duration;

const USERS: u64 = 50;

static QUERIES: AtomicU64 = AtomicU64::new(0);

fn query(user: &str) -> Result<String, String> {
    QUERIES.fetch_add(1, SeqCst);
    thread::sleep(Duration::from_micros(200));
    Ok(format!("{user} lives in house {}", user.len()))
}

fn main() -> Result<(), Box<dyn std::error::Error>> {
    let cache: Cache<String, String> =
        Cache::builder().capacity(200).threads(4).time_to_live(Duration::from_secs(60)).open()?;
    thread::scope(|scope| {
        for _ in 0..4 {
            scope.spawn(|| {
                let mut reader = cache.reader().expect("there is a reader for each thread");
                for round in 0..1000 {
                    let user = format!("user {}", round % USERS);
                    let found = reader.try_get_with(&user, || query(&user)).expect("the query doesn't fail");
                    assert!(found.starts_with(&user));
                }
            });
        }
    });
    assert_eq!(QUERIES.load(SeqCst), USERS);
    cache.invalidate("user 7");
    let mut reader = cache.reader().expect("the threads' readers are back");
    assert!(reader.get("user 7").is_none());
    println!("{} of 4000 gets were queries: {:?}", QUERIES.load(SeqCst), cache.stats());
    Ok(())
}
