//! Sets come back once each, when no key has them and no reader holds them.
use super::{asked, refused, ONE};
use crate::*;

const TWO: Row = Row { a: 2, b: 2 };
const THREE: Row = Row { a: 3, b: 3 };

#[test]
fn a_set_that_is_held_comes_back_after_its_release() {
    let ReaderMap { mut writer, mut readers } = ReaderMap::open(&Shape::new(1, 3, 1)).unwrap();
    let mut had = Rows::new();
    assert_eq!(writer.reap(&mut had), Reaped::Nothing);
    let ticket = asked(&mut readers[0], 0);
    assert_eq!(writer.fill_reclaiming(ticket, &[ONE], &mut had), Ok(None));
    let pin = readers[0].pin(0).expect("the key is filled");
    assert_eq!(writer.update_reclaiming(0, &[Delta::plus(TWO)], &mut had), Ok(Reclaimed::Done(None)));
    assert_eq!(writer.reap(&mut had), Reaped::Held);
    assert_eq!(writer.replace_reclaiming(0, &[THREE], &mut had), Ok(Reclaimed::Done(None)));
    assert_eq!(writer.reap(&mut had), Reaped::Set(&[ONE, TWO]));
    assert_eq!(writer.reap(&mut had), Reaped::Held);
    drop(pin);
    // It takes the slot that was reaped, which the last scan of the reader's word found free.
    assert_eq!(writer.update_reclaiming(0, &[Delta::minus(THREE)], &mut had), Ok(Reclaimed::Done(None)));
    assert!(writer.evict(0));
    assert_eq!(writer.reap(&mut had), Reaped::Set(&[ONE]));
    assert_eq!(writer.reap(&mut had), Reaped::Set(&[THREE]));
    assert_eq!(writer.reap(&mut had), Reaped::Set(&[]));
    assert_eq!(writer.reap(&mut had), Reaped::Nothing);
}

#[test]
fn nothing_comes_back_of_a_refused_call() {
    let ReaderMap { mut writer, mut readers } = ReaderMap::open(&Shape { rows: 1, ..Shape::new(2, 1, 1) }).unwrap();
    let mut had = Rows::new();
    assert_eq!(writer.update_reclaiming(0, &[Delta::plus(ONE)], &mut had), Ok(Reclaimed::Dropped));
    assert_eq!(writer.replace_reclaiming(0, &[ONE], &mut had), Ok(Reclaimed::Dropped));
    let [one, two] = [0, 1].map(|key| asked(&mut readers[0], key));
    assert_eq!(writer.fill_reclaiming(one, &[ONE], &mut had), Ok(None));
    let filled = writer.fill_reclaiming(two, &[ONE, TWO], &mut had).map(|had| assert_eq!(had, None));
    let (fault, two) = refused(filled);
    assert_eq!(fault, Fault::TooMany);
    let (fault, two) = refused(writer.fill_reclaiming(two, &[TWO], &mut had).map(|had| assert_eq!(had, None)));
    assert_eq!(fault, Fault::AllFilled);
    assert_eq!(writer.update_reclaiming(0, &[], &mut had), Err(Fault::BadBatch));
    assert_eq!(writer.update_reclaiming(0, &[Delta::minus(TWO)], &mut had), Err(Fault::NoRow));
    assert_eq!(writer.replace_reclaiming(0, &[TWO, ONE], &mut had), Err(Fault::TooMany));
    assert_eq!(writer.replace_reclaiming(0, &[TWO], &mut had), Err(Fault::AllFilled));
    assert_eq!(had.as_slice(), []);
    assert!(writer.evict(0));
    assert_eq!(writer.fill_reclaiming(two, &[TWO], &mut had), Ok(Some(&[ONE][..])));
}

#[test]
fn what_no_call_gave_back_comes_out_at_the_end() {
    let ReaderMap { mut writer, mut readers } = ReaderMap::open(&Shape::new(2, 4, 2)).unwrap();
    let mut had = Rows::new();
    for (key, row) in [(0, ONE), (1, TWO)] {
        let ticket = asked(&mut readers[0], key);
        assert_eq!(writer.fill_reclaiming(ticket, &[row], &mut had), Ok(None));
    }
    assert_eq!(writer.replace_reclaiming(1, &[THREE], &mut had), Ok(Reclaimed::Done(None)));
    assert_eq!(writer.reap(&mut had), Reaped::Set(&[TWO]));
    assert!(writer.evict(0));
    writer.return_reader(readers.pop().expect("there are two")).expect("there is memory");
    let mut writer = writer.take_apart().expect_err("a reader isn't back");
    assert_eq!(readers[0].find(1, &mut had), Some(&[THREE][..]));
    writer.return_reader(readers.pop().expect("there is one")).expect("there is memory");
    let mut remains = writer.take_apart().expect("each reader is back");
    let mut came = Vec::new();
    while let Some(rows) = remains.next_into(&mut had) {
        came.extend_from_slice(rows);
    }
    came.sort();
    assert_eq!(came, [ONE, THREE]);
    assert_eq!(remains.next_into(&mut had), None);
    assert!(format!("{remains:?}").starts_with("Remains("));
}

#[test]
fn a_map_whose_reader_was_dropped_is_not_taken_apart() {
    let ReaderMap { writer, readers } = ReaderMap::open(&Shape::new(1, 3, 1)).unwrap();
    drop(readers);
    assert!(writer.take_apart().is_err());
}
