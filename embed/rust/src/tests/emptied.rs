//! A map that is emptied has nothing of before, and no request of before fills it.
use super::{asked, refused, ONE};
use crate::*;

#[test]
fn each_key_is_a_hole_and_is_told() {
    let ReaderMap { mut writer, mut readers } = ReaderMap::open(&Shape::new(5, 7, 1)).unwrap();
    let late = asked(&mut readers[0], 1);
    for key in [0, 3] {
        writer.fill(asked(&mut readers[0], key), &[ONE]).unwrap();
    }
    let emptied = Emptied { evicted: vec![0, 3], cancelled: vec![1], worn: vec![] };
    assert_eq!(writer.empty(), emptied);
    assert!((0..5).all(|key| writer.state(key) == KeyKind::Hole));
    assert_eq!(refused(writer.fill(late, &[ONE])).0, Fault::NotAsked);
    assert_eq!(writer.empty(), Emptied::default());
}

#[test]
fn a_late_answer_fills_no_later_request() {
    let ReaderMap { mut writer, mut readers } = ReaderMap::open(&Shape::new(1, 3, 1)).unwrap();
    let late = asked(&mut readers[0], 0);
    assert_eq!(writer.empty().cancelled, [0]);
    let next = asked(&mut readers[0], 0);
    assert_eq!(refused(writer.fill(late, &[ONE])).0, Fault::Stale);
    assert_eq!(writer.fill(next, &[]), Ok(()));
}

#[test]
fn a_request_with_the_last_number_is_told_apart() {
    let shape = Shape { first_number: 4_194_303, ..Shape::new(2, 4, 1) };
    let ReaderMap { mut writer, mut readers } = ReaderMap::open(&shape).unwrap();
    let worn = asked(&mut readers[0], 1);
    assert_eq!(writer.empty(), Emptied { worn: vec![1], ..Emptied::default() });
    assert_eq!(writer.state(1), KeyKind::Asked);
    assert_eq!(writer.fill(worn, &[]), Ok(()));
}
