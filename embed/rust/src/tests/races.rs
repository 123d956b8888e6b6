//! Threads make any calls of a cache, and have nothing else in common. ThreadSanitizer looks at this one: values are
//! plain words that their load writes and all others read.
use super::cache::{caught, panicking, roll};
use crate::*;
use std::thread;
use std::time::Duration;

const KEYS: u64 = 6;
const THREADS: u64 = 4;
const TURNS: u64 = 1000;

type Values = Cache<u64, Box<[u64]>>;
type Reader = CacheReader<u64, Box<[u64]>>;

fn load(key: u64) -> Box<[u64]> {
    Box::new([key, key + 1])
}

fn is_right(key: u64, found: &[u64]) {
    assert_eq!(found, [key, key + 1]);
}

fn gets(cache: &Values, key: u64, dice: u64) {
    match dice % 4 {
        0 => is_right(key, &cache.get_with(&key, || load(key))),
        1 => _ = cache.try_get_with(&key, || Err("the base is away")),
        2 => _ = caught(|| cache.get_with(&key, panicking)),
        _ => match cache.get_or_request(&key) {
            Sought::Held(found) | Sought::Aged(found, _) => is_right(key, &found),
            Sought::Missing(request) if dice % 8 == 3 => request.fail("the base is away"),
            Sought::Missing(request) => _ = request.fill(load(key)),
            Sought::UnderWay(wait) => drop(wait),
        },
    }
}

fn changes(cache: &Values, key: u64, dice: u64) {
    match dice % 4 {
        0 => _ = cache.insert(key, load(key)),
        1 => _ = cache.invalidate(&key),
        2 => cache.run_pending_tasks(),
        _ if dice % 32 == 3 => cache.invalidate_all(),
        _ => {}
    }
}

fn reads(reader: &mut Reader, key: u64, dice: u64) {
    let little = Duration::from_micros(50);
    match dice % 4 {
        0 => is_right(key, &reader.get_with(&key, || load(key))),
        1 => reader.get_waiting(&key, little).iter().for_each(|found| is_right(key, found)),
        2 => reader.get_with_timeout(&key, little, || load(key)).iter().for_each(|found| is_right(key, found)),
        _ => _ = reader.update(&key, |old| old.clone()),
    }
}

#[test]
fn threads_share_a_cache_and_nothing_else() {
    let cache: Values = Cache::builder().capacity(4).threads(2 * THREADS as u32).open().unwrap();
    let begin = |thread| {
        let (cache, mut reader) = (cache.clone(), cache.reader().expect("there are enough"));
        let mut dice = thread;
        thread::spawn(move || {
            for _ in 0..TURNS {
                let (key, choice, dice) = (roll(&mut dice) % KEYS, roll(&mut dice) % 3, roll(&mut dice) >> 32);
                match choice {
                    0 => gets(&cache, key, dice),
                    1 => changes(&cache, key, dice),
                    _ => reads(&mut reader, key, dice),
                }
            }
        })
    };
    let threads: Vec<_> = (1..=THREADS).map(begin).collect();
    threads.into_iter().for_each(|thread| thread.join().unwrap());
    assert!(cache.len() <= cache.capacity());
}
