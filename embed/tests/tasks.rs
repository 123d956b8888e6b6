//! Tasks of tokio share a cache with fewer readers than threads: each gets the value of its key, whichever of them are
//! cancelled while they load or wait, and no two load one key at a time, unless it was invalidated between. So it is
//! where a task of its own loads for all.
use nr::{Cache, Request, Sought, WaitError};
use std::sync::atomic::{AtomicUsize, Ordering::SeqCst};
use std::sync::{Arc, Mutex};
use std::time::Duration;
use tokio::runtime::{Builder, Runtime};
use tokio::sync::mpsc;
use tokio::task::yield_now;
use tokio::time::{sleep, timeout};

const KEYS: usize = 40;
const TASKS: usize = 64;
const ROUNDS: usize = 100;

/// How many invalidations of a key have begun and ended, and what loads it: each load by how many had ended before its
/// get.
#[derive(Default)]
struct Key {
    begun: AtomicUsize,
    ended: AtomicUsize,
    loads: Mutex<Vec<usize>>,
}

struct Base {
    cache: Cache<usize, Arc<usize>>,
    keys: [Key; KEYS],
    loads: AtomicUsize,
    failures: AtomicUsize,
}

/// A load, which may be dropped before its end.
struct Loading<'a> {
    key: &'a Key,
    ended: usize,
}

impl<'a> Loading<'a> {
    fn of(key: &'a Key, ended: usize) -> Loading<'a> {
        let mut others = key.loads.lock().unwrap();
        let begun = key.begun.load(SeqCst);
        // Since both gets began the key was not invalidated.
        let overlap = ended == begun && others.contains(&begun);
        assert!(!overlap, "two load one key at a time");
        others.push(ended);
        Loading { key, ended }
    }
}

impl Drop for Loading<'_> {
    fn drop(&mut self) {
        let mut all = self.key.loads.lock().unwrap();
        let place = all.iter().position(|ended| *ended == self.ended).expect("it is among them");
        all.swap_remove(place);
    }
}

impl Base {
    fn new() -> Base {
        Base {
            cache: Cache::builder().capacity(KEYS / 2).threads(2).open().unwrap(),
            keys: std::array::from_fn(|_| Key::default()),
            loads: AtomicUsize::new(0),
            failures: AtomicUsize::new(0),
        }
    }

    fn ended(&self, key: usize) -> usize {
        self.keys[key].ended.load(SeqCst)
    }

    fn invalidate(&self, key: usize) {
        self.keys[key].begun.fetch_add(1, SeqCst);
        self.cache.invalidate(&key);
        self.keys[key].ended.fetch_add(1, SeqCst);
    }

    async fn query(&self, key: usize, how: usize, ended: usize) -> Result<Arc<usize>, usize> {
        let _loading = Loading::of(&self.keys[key], ended);
        self.loads.fetch_add(1, SeqCst);
        match how % 3 {
            0 => yield_now().await,
            1 => sleep(Duration::from_micros(200)).await,
            _ => {}
        }
        if how % 7 == 6 {
            self.failures.fetch_add(1, SeqCst);
            return Err(key);
        }
        Ok(Arc::new(10 * key))
    }
}

async fn gets(base: Arc<Base>, task: usize) {
    for round in 0..ROUNDS {
        let step = task * ROUNDS + round;
        let key = step * 31 % KEYS;
        let get = base.cache.try_get_with_async(&key, base.query(key, step, base.ended(key)));
        // Each fourth is cancelled where it takes longer than that.
        let got = if step % 4 == 0 {
            match timeout(Duration::from_micros(step as u64 % 300), get).await {
                Ok(got) => got,
                Err(_) => continue,
            }
        } else {
            get.await
        };
        match got {
            Ok(value) => assert_eq!(*value, 10 * key),
            Err(why) => assert_eq!(*why, key),
        }
        if step % 5 == 0 {
            base.invalidate(key);
        }
    }
}

/// A request, and how many invalidations of its key had ended before it was asked for.
struct Wanted(Request<usize, Arc<usize>>, usize);

/// Loads what is requested, one after another: fills some requests, fails others, and drops the rest.
async fn fills(base: Arc<Base>, mut wanted: mpsc::UnboundedReceiver<Wanted>) {
    let mut step = 0;
    while let Some(Wanted(request, ended)) = wanted.recv().await {
        step += 1;
        match base.query(*request.key(), step, ended).await {
            Ok(value) => _ = request.fill(value),
            Err(_) if step % 2 == 0 => request.fail("the base is away"),
            Err(_) => drop(request),
        }
    }
}

async fn requests(base: Arc<Base>, task: usize, loader: mpsc::UnboundedSender<Wanted>) {
    for round in 0..ROUNDS {
        let step = task * ROUNDS + round;
        let key = step * 31 % KEYS;
        let value = requested(&base, key, step, &loader).await;
        assert!(value.is_none_or(|value| *value == 10 * key));
        if step % 5 == 0 {
            base.invalidate(key);
        }
    }
}

/// A key's value, which the loader is asked for where nobody has asked; none where a wait was cancelled.
async fn requested(base: &Base, key: usize, step: usize, loader: &mpsc::UnboundedSender<Wanted>) -> Option<Arc<usize>> {
    loop {
        let ended = base.ended(key);
        match base.cache.get_or_request(&key) {
            Sought::Held(value) | Sought::Aged(value, _) => return Some(value),
            Sought::Missing(request) => _ = loader.send(Wanted(request, ended)),
            Sought::UnderWay(wait) if step % 4 == 0 => {
                let waited = timeout(Duration::from_micros(step as u64 % 300), wait).await;
                return waited.ok()?.ok();
            }
            Sought::UnderWay(wait) => match wait.await {
                Ok(value) => return Some(value),
                Err(WaitError::Failed(why)) => assert!(why.is_none_or(|why| why.to_string() == "the base is away")),
                Err(why) => assert!(matches!(why, WaitError::Missing)),
            },
        }
    }
}

/// Tasks, of which each makes its own loads, or asks a task that loads for all.
fn try_by(runtime: Runtime, one_loads: bool) {
    let base = Arc::new(Base::new());
    runtime.block_on(async {
        let (loader, wanted) = mpsc::unbounded_channel();
        let mut tasks = vec![tokio::spawn(fills(base.clone(), wanted))];
        tasks.extend((0..TASKS).map(|task| match one_loads {
            true => tokio::spawn(requests(base.clone(), task, loader.clone())),
            false => tokio::spawn(gets(base.clone(), task)),
        }));
        // With its last sender the loader ends.
        drop(loader);
        for task in tasks {
            task.await.expect("the task doesn't panic");
        }
    });
    drop(runtime);
    let (loads, failures) = (base.loads.load(SeqCst), base.failures.load(SeqCst));
    assert!(loads > failures && failures > 0, "{loads} loads, {failures} of them failed");
    let stats = base.cache.stats();
    assert!(stats.waits > 0 && stats.hits > 0, "{stats:?}");
    // No load is left under way: each key is loaded anew.
    base.cache.invalidate_all();
    for key in 0..KEYS {
        assert_eq!(*base.cache.get_with(&key, || Arc::new(key)), key);
    }
}

fn main() {
    for one_loads in [false, true] {
        try_by(Builder::new_multi_thread().worker_threads(4).enable_time().build().unwrap(), one_loads);
        try_by(Builder::new_current_thread().enable_time().build().unwrap(), one_loads);
    }
    println!("each task got its value");
}
