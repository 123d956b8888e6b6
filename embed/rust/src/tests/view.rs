//! A view's rows change with the base, whatever loads are at work meanwhile.
use crate::*;
use std::sync::{Barrier, Mutex, OnceLock};
use std::thread;
use std::time::Duration;

const KEYS: u64 = 20;
const ROUNDS: u64 = 3000;

fn view() -> View<u64> {
    View::builder().capacity(100).threads(8).open().unwrap()
}

fn row(a: u64) -> Row {
    Row { a, b: a * 10 }
}

fn rows(numbers: &[u64]) -> Box<[Row]> {
    numbers.iter().map(|number| row(*number)).collect()
}

#[test]
fn rows_that_are_held_change_whole_and_stay_in_order() {
    let view = view();
    let mut reader = view.reader().unwrap();
    assert_eq!(view.update(&1, &[Delta::plus(row(5))]), Ok(false));
    assert!(reader.get(&1).is_none());
    view.insert(1, rows(&[5, 5, 8]));
    for (deltas, after) in [
        (vec![Delta::plus(row(7)), Delta::plus(row(1))], &[1, 5, 5, 7, 8][..]),
        (vec![Delta::minus(row(5))], &[1, 5, 7, 8]),
        (vec![Delta::minus(row(9)), Delta::plus(row(9)), Delta::minus(row(1))], &[5, 7, 8]),
        (vec![], &[5, 7, 8]),
        (vec![Delta::minus(row(5)), Delta::minus(row(8)), Delta::minus(row(7))], &[]),
        ((0..300).map(|number| Delta::plus(row(number))).collect(), &(0..300).collect::<Vec<_>>()),
    ] {
        assert_eq!(view.update(&1, &deltas), Ok(true));
        assert_eq!(reader.get(&1).as_deref(), Some(&rows(after)));
    }
}

#[test]
fn rows_are_as_their_load_gives_them_until_they_change() {
    let view = view();
    assert_eq!(view.get_with(&1, || rows(&[8, 5])), rows(&[8, 5]));
    assert_eq!(view.get(&1), Some(rows(&[8, 5])));
    assert_eq!(view.update(&1, &[Delta::plus(row(7))]), Ok(true));
    assert_eq!(view.get(&1), Some(rows(&[5, 7, 8])));
}

/// How rows come to key 1 of a view, by what they are in what order.
type Comes = fn(&View<u64>, Box<[Row]>);

#[test]
fn rows_of_a_sorted_view_are_in_order_however_they_come() {
    let all: [Comes; 9] = [
        |view, rows| assert_eq!(view.get_with(&1, || rows), sorted()),
        |view, rows| assert_eq!(view.try_get_with(&1, || Ok::<_, ()>(rows)), Ok(sorted())),
        |view, rows| assert_eq!(**view.reader().unwrap().get_with(&1, || rows), *sorted()),
        |view, rows| assert_eq!(view.get_many_with(&[&1], |_| vec![rows.clone()]), [sorted()]),
        |view, rows| match view.get_or_request(&1) {
            Sought::Missing(request) => assert!(request.fill(rows)),
            _ => panic!("it is missing"),
        },
        |view, rows| assert!(view.insert(1, rows)),
        |view, rows| assert_eq!(view.insert_if_absent(1, rows), Ok(())),
        |view, rows| assert!(view.upsert_with(&1, |_| rows.clone())),
        |view, rows| {
            view.insert(1, [].into());
            assert!(view.change(&1).commit_with(|_| rows));
        },
    ];
    for comes in all {
        let view: View<u64> = View::builder().capacity(100).threads(2).sorted().open().unwrap();
        comes(&view, rows(&[8, 5, 9, 5]));
        assert_eq!(view.get(&1), Some(sorted()));
    }
}

fn sorted() -> Box<[Row]> {
    rows(&[5, 5, 8, 9])
}

#[test]
fn rows_that_are_not_held_are_sorted_too_and_no_lock_is_had_meanwhile() {
    static VIEW: OnceLock<View<u64>> = OnceLock::new();
    // It is told the rows once they are in order, and calls the view, which a thread can't that has a lock of it.
    #[allow(clippy::borrowed_box)]
    let weigh = |_: &u64, rows: &Box<[Row]>| {
        assert!(rows.is_sorted() && VIEW.get().is_some_and(|view| !view.contains_key(&1)));
        3
    };
    let view = View::builder().threads(2).sorted().weigher(weigh).max_weight(2).open().unwrap();
    VIEW.set(view.clone()).unwrap();
    assert_eq!(view.get_with(&1, || rows(&[8, 5])), rows(&[5, 8]));
    let mut reader = view.reader().unwrap();
    let found = reader.get_with(&1, || rows(&[8, 5]));
    assert!(!found.is_held());
    assert_eq!(**found, *rows(&[5, 8]));
}

#[test]
fn rows_that_are_not_the_bases_go() {
    let view = view();
    let mut reader = view.reader().unwrap();
    for lost in [vec![3], vec![5, 5], vec![9]] {
        view.insert(1, rows(&[5, 8]));
        let deltas: Vec<Delta> = lost.into_iter().map(|number| Delta::minus(row(number))).collect();
        assert_eq!(view.update(&1, &deltas), Err(Fault::NoRow));
        assert!(reader.get(&1).is_none());
    }
    view.insert(1, rows(&[5]));
    drop(view.change(&1));
    assert!(reader.get(&1).is_none());
    view.insert(1, rows(&[5]));
    assert_eq!(view.change(&1).commit(&[]), Ok(true));
    assert_eq!(reader.get(&1).as_deref(), Some(&rows(&[5])));
}

#[test]
fn a_load_that_began_before_a_change_was_over_is_not_held() {
    let view = view();
    let (mut reader, mut other) = (view.reader().unwrap(), view.reader().unwrap());
    // Begun before, and landed after.
    let loaded = reader.get_with(&1, || {
        assert_eq!(view.update(&1, &[Delta::plus(row(2))]), Ok(false));
        rows(&[1])
    });
    assert!(!loaded.is_held());
    drop(loaded);
    let change = view.change(&1);
    assert!(!reader.get_with(&1, || rows(&[1])).is_held());
    assert!(!view.insert(1, rows(&[1])));
    let Sought::Missing(request) = other.get_or_request(&1) else { panic!() };
    // Another change of the key begins and ends.
    assert_eq!(view.update(&1, &[]), Ok(false));
    assert!(reader.get_with(&2, || rows(&[4])).is_held());
    assert_eq!(change.commit(&[Delta::plus(row(3))]), Ok(false));
    assert!(!request.fill(rows(&[1])) && reader.get(&1).is_none());
    assert!(reader.get_with(&1, || rows(&[1])).is_held());
    // What is put during a change may be from before it.
    let change = view.change(&1);
    assert!(!view.insert(1, rows(&[6])) && reader.get(&1).is_none());
    assert_eq!(change.commit(&[]), Ok(false));
    assert_eq!((view.stats().outdated, view.stats().refused), (5, 0));
}

#[test]
fn an_update_puts_no_row_in_twice_that_another_thread_has_loaded() {
    let view = view();
    let mut reader = view.reader().unwrap();
    // The base has got row 2, and the view hears of it last.
    let load = |reader: &mut CacheReader<u64, Box<[Row]>, _>| reader.get_with(&1, || rows(&[1, 2])).is_held();
    thread::scope(|scope| assert!(scope.spawn(|| load(&mut view.reader().unwrap())).join().unwrap()));
    assert_eq!(view.update(&1, &[Delta::plus(row(2))]), Ok(false));
    assert!(reader.get(&1).is_none());
    let Sought::Missing(request) = reader.get_or_request(&1) else { panic!() };
    thread::scope(|scope| assert!(scope.spawn(|| request.fill(rows(&[1, 2]))).join().unwrap()));
    assert_eq!(view.update(&1, &[Delta::plus(row(2))]), Ok(false));
    // Its own loads come before its own changes of the base, and changes that have begun are told from loads.
    assert!(load(&mut reader));
    assert_eq!(view.update(&1, &[Delta::plus(row(3))]), Ok(true));
    thread::scope(|scope| {
        scope.spawn(|| assert_eq!(view.change(&1).commit(&[Delta::plus(row(4))]), Ok(true)));
    });
    assert_eq!(view.update(&1, &[Delta::plus(row(5))]), Ok(true));
    assert_eq!(reader.get(&1).as_deref(), Some(&rows(&[1, 2, 3, 4, 5])));
}

#[test]
fn a_change_does_not_revive_rows_that_have_expired() {
    let time = Duration::from_millis(30);
    let view = View::<u64>::builder().time_to_live(time).open().unwrap();
    let mut reader = view.reader().unwrap();
    for begins_before in [true, false] {
        view.insert(1, rows(&[1]));
        let change = begins_before.then(|| view.change(&1));
        thread::sleep(time + time / 4);
        let change = change.unwrap_or_else(|| view.change(&1));
        assert_eq!(change.commit(&[Delta::plus(row(2))]), Ok(false));
        assert!(reader.get(&1).is_none() && view.is_empty());
    }
    assert_eq!(view.stats().evictions, 2);
}

/// Each thread adds rows of its own to the base and takes them away, and loads what is missing.
fn play(number: u64, base: &[Mutex<Vec<Row>>], view: &View<u64>) {
    let mut reader = view.reader().unwrap();
    let mut dice = 0x9e37_79b9_7f4a_7c15u64 ^ (number << 40);
    let mut roll = || {
        dice ^= dice << 13;
        dice ^= dice >> 7;
        dice ^= dice << 17;
        dice >> 8
    };
    let mut own: Vec<Option<Row>> = vec![None; base.len()];
    for round in 0..ROUNDS {
        let key = roll() % KEYS;
        let (stored, mine) = (&base[key as usize], &mut own[key as usize]);
        if roll() % 4 == 0 {
            let change = view.change(&key);
            let delta = match mine.take() {
                Some(old) => Delta::minus(old),
                None => Delta::plus(*mine.insert(Row { a: number, b: round })),
            };
            let mut rows = stored.lock().unwrap();
            if delta.is_plus() {
                rows.push(delta.row());
            } else {
                rows.retain(|row| *row != delta.row());
            }
            drop(rows);
            thread::yield_now();
            assert!(change.commit(&[delta]).is_ok(), "a change of the view's rows fails");
        } else {
            let found = reader.get_with(&key, || {
                let mut rows = stored.lock().unwrap().clone();
                if round % 16 == 0 {
                    thread::sleep(Duration::from_micros(50));
                }
                thread::yield_now();
                rows.sort();
                rows.into()
            });
            let is_mine = |row: &&Row| row.a == number;
            assert_eq!(found.iter().find(is_mine), mine.as_ref(), "key {key} of thread {number}");
        }
        if roll() % 64 == 0 {
            view.invalidate(&key);
        }
    }
}

#[test]
fn after_loads_and_changes_together_the_view_has_the_bases_rows() {
    let base: Vec<Mutex<Vec<Row>>> = (0..KEYS).map(|_| Mutex::default()).collect();
    let (view, gate) = (view(), Barrier::new(6));
    thread::scope(|scope| {
        for number in 1..=6 {
            let (base, view, gate) = (&base, &view, &gate);
            scope.spawn(move || {
                gate.wait();
                play(number, base, view);
            });
        }
    });
    let mut reader = view.reader().unwrap();
    let mut held = 0;
    for (key, rows) in (0..).zip(base) {
        let Some(found) = reader.get(&key) else { continue };
        let mut rows = rows.into_inner().unwrap();
        rows.sort();
        assert_eq!(found[..], rows[..]);
        held += 1;
    }
    assert!(held > 0 && view.stats().outdated > 0, "{held} held, {:?}", view.stats());
}
