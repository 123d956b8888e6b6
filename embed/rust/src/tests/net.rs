//! Any number of signed rows count as one change, by what they come to together.
use super::asked;
use crate::*;

fn row(a: u64) -> Row {
    Row { a, b: 0 }
}

/// A map with one filled key of those rows, and what it then has.
fn after(rows: &[Row], deltas: &[Delta]) -> (Result<Updated, Fault>, Vec<Row>) {
    let shape = Shape { rows: 100, ..Shape::new(1, 3, 1) };
    let ReaderMap { mut writer, mut readers } = ReaderMap::open(&shape).unwrap();
    writer.fill(asked(&mut readers[0], 0), rows).unwrap();
    let updated = writer.update_net(0, deltas);
    let mut room = Rows::new();
    (updated, readers[0].find(0, &mut room).expect("the key is filled").to_vec())
}

#[test]
fn a_delta_tells_its_row_and_its_sign() {
    let one = row(1);
    assert_eq!([Delta::plus(one), Delta::minus(one)].map(|it| (it.row(), it.is_plus())), [(one, true), (one, false)]);
}

#[test]
fn rows_of_no_map_are_changed_alike() {
    let deltas = [Delta::minus(row(9)), Delta::plus(row(1)), Delta::plus(row(1))];
    assert_eq!(Delta::apply(&deltas, &[row(9), row(3), row(9)]), Ok(vec![row(1), row(1), row(3), row(9)]));
    assert_eq!(Delta::apply(&deltas, &[row(3)]), Err(Fault::NoRow));
    assert_eq!(Delta::apply(&[], &[row(3), row(2)]), Ok(vec![row(2), row(3)]));
}

#[test]
fn a_few_and_many_signed_rows_are_one_change() {
    for count in [1, 64, 65, 100] {
        let wanted: Vec<_> = (0..count).map(row).collect();
        let plus: Vec<_> = wanted.iter().rev().copied().map(Delta::plus).collect();
        assert_eq!(after(&[], &plus), (Ok(Updated::Done), wanted.clone()));
        let minus: Vec<_> = wanted.iter().copied().map(Delta::minus).collect();
        assert_eq!(after(&wanted, &minus), (Ok(Updated::Done), vec![]));
    }
}

#[test]
fn equal_rows_count_each() {
    let many = [Delta::plus(row(1)); 70];
    assert_eq!(after(&[row(1)], &many), (Ok(Updated::Done), vec![row(1); 71]));
    assert_eq!(after(&[row(1); 100], &[Delta::minus(row(1)); 70]), (Ok(Updated::Done), vec![row(1); 30]));
}

#[test]
fn only_what_they_come_to_counts() {
    let passing = [Delta::minus(row(9)), Delta::plus(row(9))];
    assert_eq!(after(&[row(1)], &passing), (Ok(Updated::Done), vec![row(1)]));
    assert_eq!(after(&[row(1)], &[]), (Ok(Updated::Done), vec![row(1)]));
    let mut more = passing.repeat(200);
    more.push(Delta::plus(row(2)));
    assert_eq!(after(&[row(1)], &more), (Ok(Updated::Done), vec![row(1), row(2)]));
}

#[test]
fn a_refused_change_changes_nothing() {
    for count in [1, 70] {
        let more: Vec<_> = (10..10 + count).map(row).map(Delta::plus).collect();
        let lacking = [more.clone(), vec![Delta::minus(row(9))]].concat();
        assert_eq!(after(&[row(1)], &lacking), (Err(Fault::NoRow), vec![row(1)]));
        let full: Vec<_> = (200..300).map(row).collect();
        assert_eq!(after(&full, &more), (Err(Fault::TooMany), full));
    }
}

#[test]
fn a_key_that_is_not_filled_drops_them() {
    let ReaderMap { mut writer, mut readers } = ReaderMap::open(&Shape::new(2, 3, 1)).unwrap();
    let _ticket = asked(&mut readers[0], 1);
    for (key, count) in [(0, 0), (0, 1), (1, 65)] {
        let deltas: Vec<_> = (0..count).map(row).map(Delta::plus).collect();
        assert_eq!(writer.update_net(key, &deltas), Ok(Updated::Dropped));
    }
}

#[test]
fn without_a_slot_it_is_refused() {
    let ReaderMap { mut writer, mut readers } = ReaderMap::open(&Shape { rows: 100, ..Shape::new(1, 1, 1) }).unwrap();
    writer.fill(asked(&mut readers[0], 0), &[]).unwrap();
    for count in [1, 65] {
        let deltas: Vec<_> = (0..count).map(row).map(Delta::plus).collect();
        assert_eq!(writer.update_net(0, &deltas), Err(Fault::AllFilled));
    }
    // Nothing is put where nothing changes.
    assert_eq!(writer.update_net(0, &[Delta::minus(row(1)), Delta::plus(row(1))]), Ok(Updated::Done));
}
