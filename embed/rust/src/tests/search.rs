//! Three threads get and change two keys in every order of their steps: nobody waits for ever, of a key there is one
//! load at a time, each who waits gets what a load of its key came to, and what is outdated is not kept.
use super::steps::{make, Op};
use super::world::{block_on, block_on_another, cancelled, never, search, Load, Values, World, LONG};
use crate::*;

fn gets(world: &World) {
    world.get(0, Load::Gives);
}

fn one_load(world: &World) {
    assert_eq!(world.cache.stats().loads, 1);
}

fn any(_: &World) {}

#[test]
fn all_who_get_a_key_have_it_by_one_load() {
    assert!(search(0, [gets, gets, gets], one_load) > 10);
}

#[test]
fn a_wake_up_by_chance_ends_no_wait() {
    // A get without a limit that has waited for nothing is no good.
    let reads: fn(&World) = |world| _ = world.get_by(&mut world.cache.reader().unwrap(), 0, None, Load::Gives);
    assert!(search(1, [reads, reads, |_| {}], one_load) > 10);
    assert!(search(1, [gets, gets, |_| {}], one_load) > 10);
}

#[test]
fn two_keys_are_waited_for_apart() {
    let one: fn(&World) = |world| {
        world.get(0, Load::Gives);
        world.get(1, Load::Gives);
    };
    let other: fn(&World) = |world| {
        world.get(1, Load::Gives);
        world.get(0, Load::Gives);
    };
    let end: fn(&World) = |world| assert_eq!(world.cache.stats().loads, 2);
    assert!(search(0, [one, other, |_| {}], end) > 100);
    assert!(search(0, [gets, |world| world.get(1, Load::Gives), gets], end) > 10);
}

#[test]
fn a_load_that_panics_leaves_its_key_to_another() {
    let panics: fn(&World) = |world| world.get(0, Load::Panics);
    assert!(search(0, [panics, gets, |_| {}], one_load) > 10);
    assert!(search(0, [panics, panics, |_| {}], any) > 10);
    assert!(search(0, [panics, gets, gets], one_load) > 1000);
}

#[test]
fn a_failure_is_told_to_those_who_wait_for_it() {
    let fails: fn(&World) = |world| world.get(0, Load::Fails);
    assert!(search(0, [fails, gets, fails], any) > 10);
}

#[test]
fn what_was_loaded_before_an_invalidation_is_not_kept() {
    let invalidates: fn(&World) = |world| world.change(0, |cache, _| _ = cache.invalidate(&0));
    assert!(search(0, [gets, invalidates, gets], any) > 10);
}

/// It ends once a get has returned that may have waited for it.
fn is_held_up(world: &World) {
    let load = || {
        make(Op::SetFlag(world.flags[0]));
        make(Op::Await(world.flags[1]));
        world.newest(0)
    };
    world.cache.get_with(&0, load);
    make(Op::SetFlag(world.flags[0]));
}

#[test]
fn a_change_lets_those_go_on_who_wait() {
    let invalidates: fn(&World) = |world| {
        make(Op::Await(world.flags[0]));
        world.cache.invalidate(&0);
    };
    let gets: fn(&World) = |world| {
        world.cache.get_with(&0, || world.newest(0));
        make(Op::SetFlag(world.flags[1]));
    };
    let puts: fn(&World) = |world| {
        make(Op::Await(world.flags[0]));
        world.cache.insert(0, world.newest(0));
    };
    assert!(search(0, [is_held_up, invalidates, gets], any) > 10);
    assert!(search(0, [is_held_up, puts, gets], any) > 10);
}

#[test]
fn what_was_loaded_before_a_put_is_not_kept() {
    let puts: fn(&World) = |world| world.change(0, |cache, value| _ = cache.insert(0, value));
    assert!(search(0, [gets, puts, gets], any) > 10);
}

#[test]
fn all_keys_loads_are_outdated_at_once() {
    let clears: fn(&World) = |world| world.change(0, |cache, _| cache.invalidate_all());
    let both: fn(&World) = |world| {
        world.get(1, Load::Gives);
        world.get(0, Load::Gives);
    };
    assert!(search(0, [gets, clears, both], any) > 100);
}

/// Waits no longer than that, and then gets it without a limit.
fn is_timed(world: &World) {
    let mut reader = world.cache.reader().unwrap();
    if world.get_by(&mut reader, 0, Some(LONG), Load::Gives) {
        world.get_by(&mut reader, 0, None, Load::Gives);
    }
}

#[test]
fn a_time_out_takes_nothing_from_others() {
    assert!(search(0, [is_timed, gets, |_| {}], one_load) > 10);
    assert!(search(0, [is_timed, gets, gets], one_load) > 10);
    let fails: fn(&World) = |world| _ = world.get_by(&mut world.cache.reader().unwrap(), 0, None, Load::Fails);
    assert!(search(0, [is_timed, fails, |_| {}], any) > 10);
}

#[test]
fn a_request_ends_for_those_who_wait_however_it_ends() {
    let waits: fn(&World) = |world| match world.cache.reader().unwrap().get_waiting(&0, LONG) {
        Ok(_) | Err(WaitError::Missing | WaitError::TimedOut | WaitError::Failed(_)) => {}
    };
    let requests: [fn(&World); 2] = [|world| world.request(0, Load::Gives), |world| world.request(0, Load::Fails)];
    for request in requests {
        assert!(search(0, [request, waits, gets], any) > 10);
    }
}

#[test]
fn a_cancelled_task_leaves_its_load_to_another() {
    let cancels: fn(&World) = |world| cancelled(world.cache.get_with_async(&0, never()));
    let awaits: fn(&World) = |world| block_on(world.get_async(0, Load::Gives));
    assert!(search(0, [cancels, awaits, |_| {}], one_load) > 10);
    assert!(search(0, [cancels, awaits, awaits], one_load) > 10);
    assert!(search(0, [awaits, awaits, gets], one_load) > 10);
}

#[test]
fn a_task_is_woken_by_its_last_waker() {
    let moves: fn(&World) = |world| block_on_another(world.get_async(0, Load::Gives));
    let invalidates: fn(&World) = |world| world.change(0, |cache: &Values, _| _ = cache.invalidate(&0));
    assert!(search(0, [moves, moves, gets], any) > 10);
    assert!(search(0, [moves, invalidates, gets], any) > 10);
}

#[test]
fn what_is_borrowed_stays_while_its_key_changes() {
    let holds: fn(&World) = |world| {
        let mut reader = world.cache.reader().unwrap();
        world.get_by(&mut reader, 0, None, Load::Gives);
        world.hold(&mut reader, 0);
    };
    let changes: fn(&World) = |world| {
        world.change(0, |cache, value| _ = cache.insert(0, value));
        world.cache.run_pending_tasks();
    };
    assert!(search(0, [holds, changes, |_| {}], any) > 10);
}
