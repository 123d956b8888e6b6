//! A key's value changes with the base, in whatever order changes and loads come.
use super::cache::{caught, panicking, Same};
use crate::*;
use std::hash::BuildHasherDefault;
use std::sync::{mpsc, Arc};
use std::thread;
use std::time::Duration;

fn cache() -> Cache<u64, u64> {
    Cache::builder().capacity(100).threads(4).open().unwrap()
}

#[test]
fn a_value_that_is_held_changes() {
    let cache = cache();
    assert!(!cache.change(&1).commit_with(|_| unreachable!("the key has no value")));
    assert_eq!(cache.get_with(&1, || 10), 10);
    let change = cache.change(&1);
    assert_eq!(cache.get(&1), Some(10), "until it has ended");
    assert!(change.commit_with(|old| old + 1));
    assert_eq!((cache.get(&1), cache.len()), (Some(11), 1));
    drop(cache.change(&1));
    assert_eq!(cache.get(&1), None);
    assert_eq!(format!("{:?}", cache.change(&1)), "Change { key: Some(1), .. }");
}

#[test]
fn nothing_that_is_loaded_or_put_during_a_change_is_held() {
    let cache = cache();
    let Sought::Missing(before) = cache.get_or_request(&1) else { panic!("nobody loads it") };
    let change = cache.change(&1);
    let Sought::Missing(within) = cache.get_or_request(&1) else { panic!("that load is outdated") };
    assert!(!before.fill(1) && !cache.insert(1, 2));
    assert!(!change.commit_with(|_| unreachable!("the key has no value")));
    assert!(!within.fill(3));
    assert_eq!((cache.get_with(&1, || 4), cache.get(&1)), (4, Some(4)));
}

#[test]
fn it_is_made_without_a_lock() {
    let cache: Cache<u64, Arc<u64>> = Cache::builder().capacity(1).threads(1).open().unwrap();
    let old = Arc::new(10);
    assert!(cache.insert(1, old.clone()));
    let change = cache.change(&1);
    let made = change.commit_with(|held| {
        assert_eq!(cache.get(&1).as_ref(), Some(held), "others find the old one");
        // It makes room for another, and would be freed by one of these.
        (2..10).for_each(|key| assert!(cache.insert(key, Arc::new(key))));
        assert_eq!((cache.get(&1), **held, Arc::strong_count(&old)), (None, 10, 2));
        Arc::new(11)
    });
    assert_eq!((made, cache.get(&1), Arc::strong_count(&old)), (false, None, 1));
}

#[test]
fn what_goes_as_it_is_made_is_not_revived() {
    let cache = cache();
    assert!(cache.insert(1, 10));
    let made = cache.change(&1).commit_with(|old| {
        assert!(cache.invalidate(&1));
        old + 1
    });
    assert_eq!((made, cache.get(&1)), (false, None));
    let builder = Cache::<u64, u64>::builder().time_to_live(Duration::from_millis(20));
    let cache = builder.open().unwrap();
    assert!(cache.insert(1, 10));
    let made = cache.change(&1).commit_with(|old| {
        while cache.contains_key(&1) {
            thread::yield_now();
        }
        old + 1
    });
    assert_eq!((made, cache.get(&1), cache.is_empty()), (false, None, true));
}

#[test]
fn where_it_panics_the_value_goes_and_the_change_is_over() {
    let cache: Cache<u64, Arc<u64>> = Cache::builder().open().unwrap();
    let old = Arc::new(10);
    assert!(cache.insert(1, old.clone()));
    assert_eq!(caught(|| cache.change(&1).commit_with(|_| panicking())), None);
    assert_eq!((cache.get(&1), Arc::strong_count(&old)), (None, 1));
    assert!(cache.insert(1, old));
}

#[test]
fn one_that_the_store_has_no_room_to_know_of_leaves_no_value() {
    let cache = cache();
    let others: Vec<_> = (2..1026).map(|key| cache.change(&key)).collect();
    assert!(cache.insert(1, 10));
    let change = cache.change(&1);
    assert_eq!(cache.get(&1), None);
    // It isn't known, so what is loaded meanwhile goes with its end.
    assert!(cache.insert(1, 11));
    assert!(!change.commit_with(|_| unreachable!("it may be from before or after")));
    assert_eq!(cache.get(&1), None);
    drop(others);
    assert!(cache.insert(1, 12) && cache.insert(2, 20));
}

#[test]
fn a_commit_leaves_another_key_of_the_hash_and_a_drop_takes_it() {
    let cache = Cache::<u64, u64>::builder().hasher(BuildHasherDefault::<Same>::default()).open().unwrap();
    assert!(cache.insert(1, 10));
    assert!(!cache.change(&2).commit_with(|_| unreachable!("the key has no value")));
    assert_eq!(cache.get(&1), Some(10));
    drop(cache.change(&2));
    assert_eq!(cache.get(&1), None);
}

#[test]
fn what_another_thread_has_loaded_goes_where_the_base_has_changed_before() {
    let cache = cache();
    assert_eq!(cache.get_with(&1, || 10), 10);
    assert!(cache.update_with(&1, |old| old + 1));
    thread::scope(|scope| {
        let update = || cache.update_with(&1, |_| unreachable!("who knows whether it has the change"));
        assert!(!scope.spawn(update).join().unwrap());
    });
    assert_eq!(cache.get(&1), None);
}

#[test]
fn what_changes_in_two_ways_at_a_time_goes_by_its_change() {
    let (left, came) = mpsc::channel();
    let left = move |key, value, cause| left.send((key, value, cause)).unwrap();
    let cache: Cache<u64, u64> = Cache::builder().eviction_listener(left).open().unwrap();
    assert!(cache.insert(1, 10));
    let (one, two) = (cache.change(&1), cache.change(&1));
    assert!(!two.commit_with(|old| old + 1) && !one.commit_with(|_| unreachable!("it has gone")));
    assert!(came.try_iter().eq([(1, 10, RemovalCause::Explicit)]));
    assert!(cache.insert(1, 20) && cache.change(&1).commit_with(|old| old + 1));
    assert!(came.try_iter().eq([(1, 20, RemovalCause::Replaced)]));
}

/// What does a step: a change of the base, or a load.
enum Actor<'a> {
    Change { apply: fn(u64) -> u64, change: Option<Change<'a, u64, u64>> },
    Load { request: Option<Request<u64, u64>>, read: u64 },
}

impl<'a> Actor<'a> {
    fn changes(apply: fn(u64) -> u64) -> Actor<'a> {
        Actor::Change { apply, change: None }
    }

    /// The first, second or third of its steps.
    fn step(&mut self, number: usize, cache: &'a Cache<u64, u64>, base: &mut u64) {
        match (self, number) {
            (Actor::Change { change, .. }, 0) => *change = Some(cache.change(&1)),
            (Actor::Change { apply, .. }, 1) => *base = apply(*base),
            (Actor::Change { apply, change }, _) => _ = change.take().unwrap().commit_with(|old| apply(*old)),
            (Actor::Load { request, .. }, 0) => {
                *request = match cache.get_or_request(&1) {
                    Sought::Missing(request) => Some(request),
                    _ => None,
                }
            }
            (Actor::Load { read, .. }, 1) => *read = *base,
            (Actor::Load { request, read }, _) => _ = request.take().map(|request| request.fill(*read)),
        }
    }
}

const STEPS: usize = 3;

/// All orders in which so many make their steps.
fn orders(done: [usize; 3]) -> Vec<Vec<usize>> {
    if done == [STEPS; 3] {
        return vec![Vec::new()];
    }
    let next = (0..3).filter(|actor| done[*actor] < STEPS);
    let after = |actor: usize| {
        let mut done = done;
        done[actor] += 1;
        orders(done).into_iter().map(move |rest| [vec![actor], rest].concat())
    };
    next.flat_map(after).collect()
}

/// What the cache has, and the base, after the steps in that order.
fn play(order: &[usize], is_loaded: bool) -> (Option<u64>, u64) {
    let (cache, mut base) = (cache(), 5);
    if is_loaded {
        cache.insert(1, base);
    }
    // Either order of the two changes gives another value.
    let load = Actor::Load { request: None, read: 0 };
    let mut actors = [Actor::changes(|old| old * 2), Actor::changes(|old| old + 3), load];
    let mut done = [0; 3];
    for actor in order {
        actors[*actor].step(done[*actor], &cache, &mut base);
        done[*actor] += 1;
    }
    (cache.get(&1), base)
}

#[test]
fn in_no_order_of_two_changes_and_a_load_is_the_value_wrong() {
    let (orders, mut held) = (orders([0; 3]), 0);
    assert_eq!(orders.len(), 1680);
    for (order, is_loaded) in orders.iter().flat_map(|order| [(order, true), (order, false)]) {
        let (found, base) = play(order, is_loaded);
        assert!(found.is_none_or(|found| found == base), "{found:?} for {base} after {order:?}, {is_loaded}");
        held += usize::from(found.is_some());
    }
    // Changes that don't overlap leave what they make: each order of the load's steps beside these.
    assert!(held >= 2 * 84, "hardly any value was held");
}
