//! The search of orders comes to each order once, and finds threads that wait for ever.
use super::chance::roll;
use super::schedule::Thing;
use super::steps::{every_order, make, new_thing, Act, Op, Scene};
use super::sync::{Condvar, Mutex};
use std::collections::HashSet;
use std::panic::{catch_unwind, AssertUnwindSafe};
use std::sync::{self, Arc, PoisonError};

fn scene(acts: [Act; 3]) -> Scene {
    Scene { acts, end: Box::new(|| {}) }
}

/// A thread's steps, each of one thing.
type Steps = &'static [fn(Thing) -> Op];

/// How many orders there are of threads that make these steps.
fn orders(ops: [Steps; 3]) -> u64 {
    every_order(0, || {
        let thing = new_thing();
        scene(ops.map(|ops| Box::new(move || ops.iter().for_each(|op| make(op(thing)))) as Act))
    })
}

#[test]
fn each_order_of_steps_that_meet_comes_once() {
    assert_eq!(orders([&[Op::Read], &[Op::Read, Op::Read], &[Op::Read]]), 1);
    assert_eq!(orders([&[Op::Write], &[Op::Write], &[Op::Write]]), 6);
    assert_eq!(orders([&[Op::Write, Op::Write], &[Op::Write, Op::Write], &[Op::Write, Op::Write]]), 90);
    // Either reads before the write or after it.
    assert_eq!(orders([&[Op::Read], &[Op::Write], &[Op::Read]]), 4);
}

#[test]
fn each_order_is_another() {
    let seen: Arc<sync::Mutex<Vec<Vec<usize>>>> = Arc::default();
    let count = every_order(0, || {
        let (thing, order) = (new_thing(), Arc::new(sync::Mutex::new(Vec::new())));
        let act = |own: usize| {
            let order = Arc::clone(&order);
            Box::new(move || {
                for _ in 0..2 {
                    make(Op::Write(thing));
                    order.lock().unwrap().push(own);
                }
            }) as Act
        };
        let acts = [act(0), act(1), act(2)];
        let seen = Arc::clone(&seen);
        Scene { acts, end: Box::new(move || seen.lock().unwrap().push(order.lock().unwrap().clone())) }
    });
    let seen = seen.lock().unwrap();
    let different: HashSet<_> = seen.iter().collect();
    assert_eq!((count, different.len()), (90, 90));
}

#[test]
fn things_apart_are_stepped_in_one_order() {
    let count = every_order(0, || {
        let act = || {
            let lock = Mutex::new(0);
            Box::new(move || (0..3).for_each(|_| *lock.lock().unwrap() += 1)) as Act
        };
        scene([act(), act(), act()])
    });
    assert_eq!(count, 1);
}

/// Why a search fails.
fn fault(scene: impl Fn() -> Scene) -> String {
    let why = catch_unwind(AssertUnwindSafe(|| every_order(0, scene))).expect_err("it fails");
    why.downcast_ref::<String>().cloned().unwrap_or_default()
}

#[test]
fn locks_in_two_orders_are_found() {
    let why = fault(|| {
        let locks = [(); 2].map(|()| Arc::new(Mutex::new(())));
        let act = |first: usize| {
            let locks = locks.clone();
            Box::new(move || {
                let _first = locks[first].lock();
                drop(locks[1 - first].lock());
            }) as Act
        };
        scene([act(0), act(1), Box::new(|| {})])
    });
    assert!(why.starts_with("somebody waits for ever"), "{why}");
}

/// A flag that is set and then told, or told without the lock's knowledge.
fn flag(is_under_lock: bool) -> Scene {
    let flag = Arc::new((Mutex::new(false), Condvar::new()));
    let waits = || {
        let flag = Arc::clone(&flag);
        Box::new(move || {
            let mut is_set = flag.0.lock().unwrap_or_else(PoisonError::into_inner);
            while !*is_set {
                if !is_under_lock {
                    drop(is_set);
                    is_set = flag.0.lock().unwrap_or_else(PoisonError::into_inner);
                }
                is_set = flag.1.wait(is_set).unwrap_or_else(PoisonError::into_inner);
            }
        }) as Act
    };
    let sets = {
        let flag = Arc::clone(&flag);
        Box::new(move || {
            *flag.0.lock().unwrap() = true;
            flag.1.notify_all();
        })
    };
    scene([waits(), waits(), sets])
}

#[test]
fn lost_wake_ups_are_found() {
    // Who waits looks before the flag is set, or after it; those who have slept and who comes then race for the lock.
    assert_eq!(every_order(0, || flag(true)), 10);
    assert!(every_order(2, || flag(true)) > 10);
    assert!(fault(|| flag(false)).starts_with("somebody waits for ever"));
}

/// How many orders of these threads' steps there are, where those are one that differ by steps which don't meet: by
/// trying all, and by asking of each two steps that meet which comes first.
fn counted(ops: &[Vec<(u32, bool)>; 3]) -> usize {
    let mut classes = HashSet::new();
    let mut left = vec![(Vec::new(), [0; 3])];
    while let Some((made, at)) = left.pop() {
        let goes_on = (0..3).filter(|own| at[*own] < ops[*own].len());
        let longer = goes_on.map(|own| {
            let (mut made, mut at): (Vec<(usize, usize)>, [usize; 3]) = (made.clone(), at);
            made.push((own, at[own]));
            at[own] += 1;
            (made, at)
        });
        let before = left.len();
        left.extend(longer);
        if left.len() == before {
            classes.insert(firsts(ops, &made));
        }
    }
    classes.len()
}

/// Which of each two steps that meet comes first.
fn firsts(ops: &[Vec<(u32, bool)>; 3], made: &[(usize, usize)]) -> Vec<[(usize, usize); 2]> {
    let meets = |one: (usize, usize), other: (usize, usize)| {
        let (one, other) = (ops[one.0][one.1], ops[other.0][other.1]);
        one.0 == other.0 && (one.1 || other.1)
    };
    let pairs = made.iter().enumerate().flat_map(|(place, one)| made[place + 1..].iter().map(|other| [*one, *other]));
    let mut firsts: Vec<_> = pairs.filter(|[one, other]| meets(*one, *other)).collect();
    firsts.sort_unstable();
    firsts
}

#[test]
fn as_many_orders_come_as_there_are() {
    let mut dice = 1;
    for _ in 0..100 {
        let ops = [(); 3].map(|()| (0..2 + roll(&mut dice) % 2).map(|_| step(roll(&mut dice) >> 32)).collect());
        let found = every_order(0, || {
            let first = new_thing();
            new_thing();
            scene(ops.clone().map(|ops: Vec<_>| {
                let op = move |(thing, writes)| if writes { Op::Write(first + thing) } else { Op::Read(first + thing) };
                Box::new(move || ops.into_iter().map(op).for_each(make)) as Act
            }))
        });
        assert_eq!(found as usize, counted(&ops), "{ops:?}");
    }
}

/// Any step that touches one of two things.
fn step(dice: u64) -> (u32, bool) {
    ((dice % 2) as u32, dice / 2 % 3 == 0)
}
