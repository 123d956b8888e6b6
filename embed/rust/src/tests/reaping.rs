//! Values that left are dropped soon, though not each change looks at all readers.
use super::chance::caught;
use crate::*;
use std::sync::atomic::{AtomicUsize, Ordering::SeqCst};
use std::sync::Arc;

/// A value that is counted while it is there.
struct Counted(Arc<AtomicUsize>);

impl Counted {
    fn new(alive: &Arc<AtomicUsize>) -> Counted {
        alive.fetch_add(1, SeqCst);
        Counted(alive.clone())
    }
}

impl Drop for Counted {
    fn drop(&mut self) {
        self.0.fetch_sub(1, SeqCst);
    }
}

type Values = Cache<u64, Counted>;

/// How many values there are of a cache, and the cache. It has one part.
struct Scene {
    alive: Arc<AtomicUsize>,
    cache: Values,
}

impl Scene {
    fn new(builder: CacheBuilder<u64, Counted>) -> Scene {
        Scene { alive: Arc::default(), cache: builder.open().unwrap() }
    }

    fn alive(&self) -> usize {
        self.alive.load(SeqCst)
    }

    /// How many values have left, and are there still.
    fn left(&self) -> usize {
        self.alive() - self.cache.len()
    }

    fn load(&self, key: u64) {
        drop(self.cache.reader().unwrap().get_with(&key, || Counted::new(&self.alive)));
    }

    fn insert(&self, key: u64) {
        assert!(self.cache.insert(key, Counted::new(&self.alive)));
    }

    /// Loads so many keys, each once: how many values that left there were at most after a load.
    fn load_all(&self, keys: u64) -> usize {
        (0..keys).map(|key| self.load(key)).map(|()| self.left()).max().unwrap_or(0)
    }
}

/// Of one part: of fewer than 128 entries, or of as many.
fn builder(capacity: usize, readers: u32) -> CacheBuilder<u64, Counted> {
    Cache::builder().capacity(capacity).threads(readers)
}

#[test]
fn what_made_room_waits_for_seven_other_landings_at_most() {
    let scene = Scene::new(builder(128, 16));
    assert!((1..=7).contains(&scene.load_all(1000)));
    scene.cache.run_pending_tasks();
    assert_eq!((scene.left(), scene.cache.len()), (0, 128));
}

#[test]
fn what_made_room_waits_for_nothing_in_a_small_part_or_where_that_matters() {
    let builders = [
        builder(127, 16),
        builder(128, 16).weigher(|_, _| 1),
        builder(128, 16).max_weight(100),
        builder(128, 16).eviction_listener(|_, _, _| {}),
    ];
    for builder in builders {
        assert_eq!(Scene::new(builder).load_all(1000), 0);
    }
}

#[test]
fn what_is_invalidated_or_replaced_or_changed_is_dropped_at_once_with_what_waits() {
    let scene = Scene::new(builder(128, 16));
    let changes: [fn(&Scene); 5] = [
        |scene| assert!(scene.cache.invalidate(&1)),
        |scene| scene.insert(1),
        |scene| assert!(scene.cache.upsert_with(&1, |_| Counted::new(&scene.alive))),
        |scene| assert!(scene.cache.change(&1).commit_with(|_| Counted::new(&scene.alive))),
        |scene| scene.cache.invalidate_all(),
    ];
    for change in changes {
        scene.load_all(1001);
        scene.load(1);
        change(&scene);
        assert_eq!(scene.left(), 0);
    }
}

#[test]
fn with_many_readers_a_look_is_for_several_changes() {
    // One for any, and one for each 64 readers.
    let scene = Scene::new(builder(200, 640));
    let most = (0..200).map(|_| scene.insert(1)).map(|()| scene.left()).max();
    assert!(most.is_some_and(|most| (1..=10).contains(&most)), "{most:?}");
    scene.cache.run_pending_tasks();
    assert_eq!((scene.left(), scene.cache.len()), (0, 1));
    assert!((1..=17).contains(&scene.load_all(1000)));
    scene.cache.invalidate_all();
    assert_eq!(scene.alive(), 0);
}

#[test]
fn what_a_reader_has_keeps_no_other_and_is_dropped_by_a_later_change() {
    let scene = Scene::new(builder(200, 640));
    let mut reader = scene.cache.reader().unwrap();
    scene.insert(1);
    let borrowed = reader.get(&1).unwrap();
    for _ in 0..100 {
        scene.insert(1);
        assert!((1..=11).contains(&scene.left()));
    }
    scene.cache.run_pending_tasks();
    assert_eq!(scene.left(), 1);
    drop(borrowed);
    let changes = (0..100).take_while(|key| {
        _ = scene.cache.invalidate(&(key + 2));
        scene.left() > 0
    });
    assert!(changes.count() < 11);
}

#[test]
fn a_drop_that_panics_keeps_nothing_that_left() {
    let alive = Arc::new(AtomicUsize::new(0));
    let cache: Cache<u64, Fragile> = Cache::builder().capacity(200).threads(640).open().unwrap();
    for key in 0..5 {
        cache.insert(key, Fragile(Counted::new(&alive)));
    }
    // Each of them waits.
    (0..5).for_each(|key| assert!(cache.invalidate(&key)));
    assert_eq!(alive.load(SeqCst), 5);
    assert_eq!(caught(|| cache.run_pending_tasks()), None);
    assert_eq!(alive.load(SeqCst), 0);
}

/// Panics where it is dropped.
struct Fragile(#[allow(dead_code)] Counted);

impl Drop for Fragile {
    fn drop(&mut self) {
        super::chance::panicking()
    }
}
