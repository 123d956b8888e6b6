//! The search of all orders of three threads in caches whose entries expire, grow old, are left for loads that fail, have
//! weights, are listened to or change with their base.
use super::steps::{make, Op};
use super::world::{search_in, Load, Setting, World, LONG};
use crate::*;
use std::time::Duration;

fn gets(world: &World) {
    world.get(0, Load::Gives);
}

fn fails(world: &World) {
    world.get(0, Load::Fails);
}

fn invalidates(world: &World) {
    world.change(0, |cache, _| _ = cache.invalidate(&0));
}

fn puts(world: &World) {
    world.change(0, |cache, value| _ = cache.insert(0, value));
}

fn commits(world: &World) {
    world.commit(0);
}

fn nothing(_: &World) {}

/// What has expired is found by nobody from then on, and is loaded once.
#[test]
fn a_value_that_has_expired_is_loaded_anew() {
    let setting = Setting { builder: |builder| builder.time_to_live(LONG / 2), first: nothing };
    let outlives: fn(&World) = |world| {
        let before = world.origin(0);
        make(Op::Pass(LONG));
        assert_ne!(world.origin(0), before, "a value is found after its time");
    };
    let end: fn(&World) = |world| assert!((2..=3).contains(&world.cache.stats().loads));
    assert!(search_in(setting, 0, [outlives, gets, nothing], end) > 100);
    let ends: fn(&World) = |world| world.cache.run_pending_tasks();
    assert!(search_in(setting, 0, [outlives, ends, nothing], end) > 10);
    assert!(search_in(setting, 0, [outlives, invalidates, nothing], nothing) > 10);
}

/// One caller at a time loads a value that is old, and what that gives isn't kept where the key has changed since.
#[test]
fn a_value_that_is_old_is_loaded_by_one_beside_it() {
    let setting = Setting { builder: |builder| builder.refresh_after(Duration::ZERO), first: gets };
    let refreshes: fn(&World) = |world| world.request(0, Load::Gives);
    let fails: fn(&World) = |world| world.request(0, Load::Fails);
    assert!(search_in(setting, 0, [refreshes, refreshes, fails], nothing) > 10);
    for changes in [invalidates as fn(&World), puts, commits] {
        assert!(search_in(setting, 0, [refreshes, refreshes, changes], nothing) > 10);
    }
}

/// What has expired answers where its load fails, and no longer once its key has changed.
#[test]
fn a_value_that_is_left_answers_until_its_key_changes() {
    let builder = |builder: super::world::Builder| builder.time_to_live(Duration::ZERO).stale_if_error(Duration::MAX);
    let setting = Setting { builder, first: gets };
    let end: fn(&World) = |world| assert_eq!(world.cache.stats().stale, 2);
    assert!(search_in(setting, 0, [fails, fails, nothing], end) > 10);
    assert!(search_in(setting, 0, [fails, gets, invalidates], nothing) > 10);
    assert!(search_in(setting, 0, [fails, gets, puts], nothing) > 10);
    assert!(search_in(setting, 0, [fails, commits, nothing], nothing) > 10);
}

/// What is too heavy is its caller's alone, and those who wait for it load it too.
#[test]
fn who_waits_for_a_value_that_is_too_heavy_loads_it_too() {
    let setting = Setting { builder: |builder| builder.weigher(|_, _| 3).max_weight(2), first: nothing };
    let end: fn(&World) = |world| assert_eq!((world.cache.stats().loads, world.cache.len()), (2, 0));
    assert!(search_in(setting, 0, [gets, gets, nothing], end) > 10);
}

/// Of two keys of which one alone fits the other goes, and what a reader borrows stays.
#[test]
fn what_makes_room_by_its_weight_leaves_no_more_than_fits() {
    let setting = Setting { builder: |builder| builder.weigher(|_, _| 2).max_weight(3), first: gets };
    let other: fn(&World) = |world| world.get(1, Load::Gives);
    let holds: fn(&World) = |world| world.hold(&mut world.cache.reader().unwrap(), 0);
    let end: fn(&World) = |world| assert!(world.cache.weighted_size() == 2 && world.cache.len() == 1);
    assert!(search_in(setting, 0, [gets, other, holds], end) > 10);
    assert!(search_in(setting, 0, [puts, other, holds], end) > 10);
}

/// The listener is told each value that was held and left, once, and as none of them is borrowed any more.
#[test]
fn a_listener_is_told_each_value_once() {
    let builder = |builder: super::world::Builder| builder.eviction_listener(|_, value, cause| value.left(cause));
    let setting = Setting { builder, first: gets };
    let holds: fn(&World) = |world| world.hold(&mut world.cache.reader().unwrap(), 0);
    let other: fn(&World) = |world| world.change(1, |cache, value| _ = cache.insert(1, value));
    let one_is_replaced: fn(&World) = |world| {
        world.cache.invalidate_all();
        world.cache.run_pending_tasks();
        assert_eq!(world.causes(), [RemovalCause::Replaced, RemovalCause::Explicit, RemovalCause::Explicit]);
    };
    assert!(search_in(setting, 0, [puts, other, holds], one_is_replaced) > 10);
    let all: fn(&World) = |world| {
        world.cache.invalidate_all();
        world.cache.run_pending_tasks();
        let (told, counted) = (world.causes(), world.cache.stats());
        assert!(told.iter().all(|cause| *cause == RemovalCause::Explicit));
        assert_eq!(told.len() as u64, counted.loads - counted.outdated);
    };
    assert!(search_in(setting, 0, [gets, invalidates, holds], all) > 10);
}

/// A value changes as its base does: by two changes one after another, or at a time, and with loads between them.
#[test]
fn a_value_changes_once_with_its_base() {
    let setting = Setting { builder: |builder| builder, first: gets };
    assert!(search_in(Setting { first: nothing, ..setting }, 0, [commits, gets, gets], nothing) > 10);
    assert!(search_in(setting, 0, [commits, gets, gets], nothing) > 10);
    assert!(search_in(setting, 0, [commits, commits, gets], nothing) > 10);
}
