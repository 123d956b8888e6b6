//! Each call does what it says, and what can be wrong with its arguments is refused.
use crate::*;

mod absent;
mod all;
mod attack;
mod cache;
mod chance;
mod change;
mod emptied;
mod eviction;
mod holds;
mod inbox;
mod lasting;
mod leaving;
mod loaders;
mod lobby;
mod many;
mod misses;
mod net;
mod orders;
mod outdated;
mod panics;
mod pending;
mod progress;
mod races;
mod reaping;
mod reclaiming;
mod refresh;
mod scenes;
mod schedule;
mod search;
mod stale;
mod stats;
mod steps;
pub(crate) mod sync;
mod tasks;
mod threads;
mod tsan;
mod values;
mod view;
mod weights;
mod world;

const ONE: Row = Row { a: 1, b: 1 };

/// The ticket of a key that nobody asked for.
fn asked(reader: &mut Reader, key: u32) -> Ticket {
    let Asked::Send(ticket) = reader.ask(key) else { panic!("somebody asked for key {key}") };
    ticket
}

fn refused(filled: Result<(), Unfilled>) -> (Fault, Ticket) {
    let Unfilled { fault, ticket } = filled.expect_err("the fill is refused");
    (fault, ticket)
}

#[test]
fn a_forgotten_pin_is_released_by_the_next_call() {
    let ReaderMap { mut writer, mut readers } = ReaderMap::open(&Shape::new(1, 2, 1)).unwrap();
    writer.fill(asked(&mut readers[0], 0), &[ONE]).unwrap();
    let batch = [Delta::plus(Row { a: 2, b: 2 })];
    std::mem::forget(readers[0].pin(0));
    writer.update(0, &batch).unwrap();
    assert_eq!(writer.update(0, &batch), Err(Fault::NoSlot));
    let mut rows = Rows::new();
    assert_eq!(readers[0].find(0, &mut rows).map(<[Row]>::len), Some(2));
    assert_eq!(writer.update(0, &batch), Ok(Updated::Done));
}

#[test]
fn slots_are_filled_keys_or_retired_or_free() {
    let ReaderMap { mut writer, mut readers } = ReaderMap::open(&Shape::new(2, 6, 1)).unwrap();
    for key in 0..2 {
        writer.fill(asked(&mut readers[0], key), &[ONE]).unwrap();
    }
    writer.replace(0, &[]).unwrap();
    assert_eq!(writer.slot_counts(), SlotCounts { filled: 2, retired: 1, free: 3 });
}

#[test]
fn a_pin_finds_its_key_until_it_is_put_anew() {
    let ReaderMap { mut writer, mut readers } = ReaderMap::open(&Shape::new(2, 4, 1)).unwrap();
    for key in 0..2 {
        writer.fill(asked(&mut readers[0], key), &[ONE]).unwrap();
    }
    let mut pin = readers[0].pin(0).expect("the key is filled");
    assert_eq!((pin.again(0), pin.again(1)), (true, false));
    writer.update(0, &[Delta::plus(ONE)]).unwrap();
    writer.update(0, &[Delta::minus(ONE)]).unwrap();
    assert_eq!((pin.again(0), pin.row(0)), (false, Some(ONE)));
    drop(pin);
    let mut pin = readers[0].pin(0).expect("the key is filled");
    assert!(pin.again(0) && pin.again(0));
    assert!(writer.evict(0));
    assert!(!pin.again(0));
}

#[test]
fn a_kept_find_holds_its_set_until_the_next_call() {
    let ReaderMap { mut writer, mut readers } = ReaderMap::open(&Shape::new(2, 1, 1)).unwrap();
    let [one, two] = [0, 1].map(|key| asked(&mut readers[0], key));
    writer.fill(one, &[ONE]).unwrap();
    let mut rows = Rows::new();
    for _ in 0..2 {
        assert_eq!(readers[0].find_kept(0, &mut rows), Some(&[ONE][..]));
    }
    assert!(writer.evict(0));
    let (fault, two) = refused(writer.fill(two, &[]));
    assert_eq!(fault, Fault::NoSlot);
    assert_eq!(readers[0].find_kept(0, &mut rows), None);
    assert_eq!(writer.fill(two, &[]), Ok(()));
    assert_eq!(readers[0].find_kept(1, &mut rows), Some(&[][..]));
    assert!(writer.evict(1));
    assert_eq!(readers[0].find(1, &mut rows), None);
    let ticket = asked(&mut readers[0], 0);
    assert_eq!(writer.fill(ticket, &[ONE]), Ok(()));
}

#[test]
#[should_panic(expected = "the map has 1 keys, and the key is 1")]
fn a_pin_finds_no_key_that_is_not_there() {
    let ReaderMap { mut writer, mut readers } = ReaderMap::open(&Shape::new(1, 3, 1)).unwrap();
    writer.fill(asked(&mut readers[0], 0), &[]).unwrap();
    let mut pin = readers[0].pin(0).expect("the key is filled");
    let _ = pin.again(1);
}

#[test]
fn each_refusal_of_a_fill_gives_the_ticket_back() {
    let shape = Shape { rows: 1, first_number: 7, ..Shape::new(2, 1, 1) };
    let ReaderMap { mut writer, mut readers } = ReaderMap::open(&shape).unwrap();
    let reader = &mut readers[0];
    let old = asked(reader, 0);
    assert_eq!((old.key(), old.number()), (0, 7));
    assert_eq!((reader.ask(0), writer.state(0)), (Asked::Waiting, KeyKind::Asked));
    assert_eq!((writer.cancel(0), writer.cancel(0), writer.number(0)), (Cancel::Cancelled, Cancel::Nothing, 8));
    let (fault, old) = refused(writer.fill(old, &[]));
    assert_eq!((fault, old.key(), old.number()), (Fault::NotAsked, 0, 7));
    let new = asked(reader, 0);
    assert_eq!((new.key(), new.number()), (0, 8));
    let (fault, old) = refused(writer.fill(old, &[]));
    assert_eq!(fault, Fault::Stale);
    let (fault, new) = refused(writer.fill(new, &[ONE, ONE]));
    assert_eq!((fault, new.number()), (Fault::TooMany, 8));
    assert_eq!(writer.fill(new, &[ONE]), Ok(()));
    assert_eq!((reader.ask(0), writer.state(0)), (Asked::Filled, KeyKind::Rows));
    let (fault, _) = refused(writer.fill(old, &[ONE]));
    assert_eq!(fault, Fault::Already);
}

#[test]
fn a_fill_without_a_slot_is_made_later_by_the_same_ticket() {
    let ReaderMap { mut writer, mut readers } = ReaderMap::open(&Shape::new(2, 1, 2)).unwrap();
    let (one, two) = (asked(&mut readers[0], 0), asked(&mut readers[0], 1));
    writer.fill(one, &[ONE]).unwrap();
    let pin = readers[0].pin(0).expect("the key is filled");
    let refusal = writer.fill(two, &[ONE]).unwrap_err();
    assert_eq!(refusal.to_string(), "key 1 is not filled by this: each slot is a filled key's");
    assert!(writer.evict(0));
    let (fault, two) = refused(writer.fill(refusal.ticket, &[ONE]));
    assert_eq!((fault, writer.state(1)), (Fault::NoSlot, KeyKind::Asked));
    drop(pin);
    assert_eq!(writer.fill(two, &[ONE]), Ok(()));
    assert_eq!(readers[1].find(1, &mut Rows::new()), Some(&[ONE][..]));
}

#[test]
fn rows_out_of_order_are_put_in_order_and_filled() {
    let ReaderMap { mut writer, mut readers } = ReaderMap::open(&Shape::new(1, 1, 1)).unwrap();
    let mut rows = [Row { a: 2, b: 0 }, ONE];
    let (fault, ticket) = refused(writer.fill(asked(&mut readers[0], 0), &rows));
    assert_eq!(fault, Fault::NotSorted);
    rows.sort();
    assert_eq!(writer.fill(ticket, &rows), Ok(()));
}

#[test]
fn a_lost_request_is_taken_back_and_sent_anew() {
    let ReaderMap { mut writer, mut readers } = ReaderMap::open(&Shape::new(1, 1, 1)).unwrap();
    drop(asked(&mut readers[0], 0));
    assert_eq!(readers[0].ask(0), Asked::Waiting);
    assert_eq!(writer.cancel(0), Cancel::Cancelled);
    let ticket = asked(&mut readers[0], 0);
    assert_eq!(ticket.number(), 1);
    assert_eq!(writer.fill(ticket, &[]), Ok(()));
}

#[test]
fn a_ticket_takes_its_own_request_back_and_no_other() {
    let ReaderMap { mut writer, mut readers } = ReaderMap::open(&Shape::new(1, 2, 1)).unwrap();
    let lost = asked(&mut readers[0], 0);
    assert_eq!(writer.cancel(0), Cancel::Cancelled);
    let ticket = asked(&mut readers[0], 0);
    assert_eq!((writer.cancel_ticket(lost), writer.state(0), writer.number(0)), (Ok(()), KeyKind::Asked, 1));
    assert_eq!((writer.cancel_ticket(ticket), writer.state(0), writer.number(0)), (Ok(()), KeyKind::Hole, 2));
    let ticket = asked(&mut readers[0], 0);
    let (_, ticket) = refused(writer.fill(ticket, &[ONE; 16]));
    assert_eq!((writer.cancel_ticket(ticket), writer.number(0)), (Ok(()), 3));
    let ticket = asked(&mut readers[0], 0);
    assert_eq!((ticket.number(), writer.fill(ticket, &[])), (3, Ok(())));
}

#[test]
fn the_last_number_is_not_taken_back() {
    let shape = Shape { first_number: 4_194_303, ..Shape::new(1, 1, 1) };
    let ReaderMap { mut writer, mut readers } = ReaderMap::open(&shape).unwrap();
    let ticket = asked(&mut readers[0], 0);
    assert_eq!(writer.cancel(0), Cancel::Worn);
    let ticket = writer.cancel_ticket(ticket).expect_err("the number is the last");
    assert_eq!((writer.state(0), writer.fill(ticket, &[])), (KeyKind::Asked, Ok(())));
}

#[test]
fn each_refusal_of_an_update_has_its_name() {
    let shape = Shape { rows: 1, ..Shape::new(1, 3, 1) };
    let ReaderMap { mut writer, mut readers } = ReaderMap::open(&shape).unwrap();
    assert_eq!(writer.update(0, &[Delta::minus(ONE)]), Ok(Updated::Dropped));
    let ticket = asked(&mut readers[0], 0);
    assert_eq!(writer.update(0, &[Delta::plus(ONE)]), Ok(Updated::Dropped));
    writer.fill(ticket, &[ONE]).unwrap();
    assert_eq!(writer.update(0, &[]), Err(Fault::BadBatch));
    assert_eq!(writer.update(0, &[Delta::plus(ONE); 65]), Err(Fault::BadBatch));
    assert_eq!(writer.update(0, &[Delta::plus(ONE)]), Err(Fault::TooMany));
    assert_eq!(writer.update(0, &[Delta::minus(Row { a: 2, b: 2 })]), Err(Fault::NoRow));
    assert_eq!(writer.look(0, &mut Rows::new()), Some(&[ONE][..]));
    assert_eq!((writer.evict(0), writer.evict(0), writer.state(0)), (true, false, KeyKind::Hole));
    assert_eq!(writer.look(0, &mut Rows::new()), None);
}

#[test]
fn a_shape_out_of_its_limits_is_refused() {
    assert_eq!(ReaderMap::open(&Shape::new(0, 1, 1)).err(), Some(Fault::BadSize));
    assert_eq!(ReaderMap::open(&Shape { rows: 256, ..Shape::new(1, 1, 1) }).err(), Some(Fault::BadSize));
}

#[test]
#[should_panic(expected = "the map has 1 keys, and the key is 1")]
fn a_key_that_is_not_there_panics() {
    let ReaderMap { mut readers, .. } = ReaderMap::open(&Shape::new(1, 3, 1)).unwrap();
    let _ = readers[0].ask(1);
}

#[test]
fn a_reader_that_is_returned_is_opened_again() {
    let ReaderMap { mut writer, mut readers } = ReaderMap::open(&Shape::new(1, 2, 2)).unwrap();
    assert_eq!(writer.open_reader().err(), Some(Fault::NoReader));
    writer.fill(asked(&mut readers[0], 0), &[ONE]).unwrap();
    let mut rows = Rows::new();
    let mut reader = readers.pop().expect("there are two");
    for _ in 0..3 {
        assert_eq!(reader.find_kept(0, &mut rows), Some(&[ONE][..]));
        writer.return_reader(reader).expect("there is memory");
        reader = writer.open_reader().expect("it was returned");
    }
    // What it held was released: an update needs the slot that isn't the key's, and so does the next.
    for delta in [Delta::plus(ONE), Delta::minus(ONE)] {
        assert_eq!(writer.update(0, &[delta]), Ok(Updated::Done));
    }
    drop(reader);
    assert_eq!(writer.open_reader().err(), Some(Fault::NoReader));
    assert_eq!(readers[0].find(0, &mut rows), Some(&[ONE][..]));
}

#[test]
#[should_panic(expected = "the tokens are of two maps")]
fn a_reader_is_returned_to_its_own_map() {
    let [mut one, mut two] = two_maps();
    let _ = one.writer.return_reader(two.readers.pop().expect("there is one"));
}

#[test]
fn a_pin_has_the_rows_and_a_reader_the_sizes() {
    let ReaderMap { mut writer, mut readers } = ReaderMap::open(&Shape::new(1, 4, 2)).unwrap();
    let sizes = Sizes { keys: 1, slots: 4, readers: 2, rows: 15 };
    assert_eq!(readers[0].sizes(), sizes);
    writer.fill(asked(&mut readers[0], 0), &[ONE]).unwrap();
    let mut pin = readers[0].pin(0).expect("the key is filled");
    assert_eq!((pin.len(), pin.row(0), pin.row(1)), (1, Some(ONE), None));
    assert!(!pin.is_empty());
    assert_eq!(pin.copy(&mut Rows::new()), [ONE]);
}

/// Two maps of the same shape.
fn two_maps() -> [ReaderMap; 2] {
    [0, 1].map(|_| ReaderMap::open(&Shape::new(1, 3, 1)).unwrap())
}

#[test]
#[should_panic(expected = "the ticket is another map's")]
fn a_ticket_fills_no_other_map() {
    let [mut one, mut two] = two_maps();
    let _ = asked(&mut two.readers[0], 0);
    let _ = two.writer.fill(asked(&mut one.readers[0], 0), &[]);
}

#[test]
#[should_panic(expected = "the ticket is another map's")]
fn a_ticket_takes_no_request_of_another_map_back() {
    let [mut one, mut two] = two_maps();
    let _ = two.writer.cancel_ticket(asked(&mut one.readers[0], 0));
}

#[test]
#[should_panic(expected = "the ticket is another map's")]
fn a_ticket_is_posted_to_no_other_maps_queue() {
    let [mut one, two] = two_maps();
    let mut queue = Queue::open(&two.writer, 2, 1).unwrap();
    let _ = queue.posters[0].post(asked(&mut one.readers[0], 0));
}

#[test]
fn a_queue_gives_tickets_in_their_order_and_back_where_it_is_full() {
    let ReaderMap { mut writer, mut readers } = ReaderMap::open(&Shape::new(3, 4, 1)).unwrap();
    let Queue { mut taker, mut posters } = Queue::open(&writer, 2, 1).unwrap();
    let [two, zero, one] = [2, 0, 1].map(|key| asked(&mut readers[0], key));
    assert_eq!(taker.take(), Err(Fault::Empty));
    assert_eq!((posters[0].post(two), posters[0].post(zero)), (Ok(()), Ok(())));
    let Unposted { fault, ticket: one } = posters[0].post(one).expect_err("the queue is full");
    assert_eq!((fault, one.key()), (Fault::Full, 1));
    for wanted in [2, 0] {
        let ticket = taker.take().expect("a ticket was posted");
        assert_eq!(ticket.key(), wanted);
        assert_eq!(writer.fill(ticket, &[]), Ok(()));
    }
    assert_eq!(taker.take(), Err(Fault::Empty));
    assert_eq!(Queue::open(&writer, 0, 1).err(), Some(Fault::BadSize));
}

#[test]
fn a_shared_queue_tells_whose_each_ticket_is() {
    let shapes = [2, 1, 3].map(|keys| Shape { first_number: u64::from(keys), ..Shape::new(keys, keys, 1) });
    let mut maps = shapes.map(|shape| ReaderMap::open(&shape).unwrap());
    let writers: Vec<&Writer> = maps.iter().map(|map| &map.writer).collect();
    let SharedQueue { mut taker, mut posters } = SharedQueue::open(&writers, 4, 1).unwrap();
    let asked_for = [(2, 0), (0, 1), (1, 0), (2, 2)];
    for (map, key) in asked_for {
        assert_eq!(posters[0].post(asked(&mut maps[map].readers[0], key)), Ok(()));
    }
    let ticket = asked(&mut maps[0].readers[0], 0);
    let Unposted { fault: Fault::Full, ticket } = posters[0].post(ticket).expect_err("the queue is full") else {
        panic!()
    };
    assert_eq!((ticket.key(), ticket.number()), (0, 2));
    for (map, key) in asked_for {
        let (place, ticket) = taker.take().expect("a ticket was posted");
        assert_eq!((place, ticket.key(), ticket.number()), (map, key, u64::from(shapes[map].keys)));
        assert_eq!(maps[place].writer.fill(ticket, &[Row { a: u64::from(key), b: 0 }]), Ok(()));
        assert_eq!(maps[map].readers[0].find(key, &mut Rows::new()), Some(&[Row { a: u64::from(key), b: 0 }][..]));
    }
    assert_eq!(taker.take(), Err(Fault::Empty));
    posters[0].post_waiting(ticket);
    assert_eq!(taker.take().map(|(place, ticket)| (place, ticket.key())), Ok((0, 0)));
}

#[test]
#[should_panic(expected = "the ticket is of none of the queue's maps")]
fn a_ticket_of_no_map_of_a_shared_queue_panics() {
    let [mut one, two] = two_maps();
    let mut queue = SharedQueue::open(&[&two.writer], 2, 1).unwrap();
    let _ = queue.posters[0].post(asked(&mut one.readers[0], 0));
}

#[test]
#[should_panic(expected = "two of the writers are of one map")]
fn a_shared_queue_names_no_map_twice() {
    let [one, two] = two_maps();
    let _ = SharedQueue::open(&[&one.writer, &two.writer, &one.writer], 2, 1);
}

#[test]
fn tokens_show_themselves() {
    let mut map = ReaderMap::open(&Shape::new(1, 3, 1)).unwrap();
    let ticket = asked(&mut map.readers[0], 0);
    let shown = format!("{ticket:?}");
    assert!(shown.starts_with("Ticket {") && shown.ends_with("key: 0, number: 0 }"), "{shown}");
    map.writer.fill(ticket, &[ONE]).unwrap();
    let mut rows = Rows::new();
    assert_eq!(map.readers[0].find(0, &mut rows), Some(&[ONE][..]));
    assert_eq!(format!("{rows:?}"), "Rows([Row { a: 1, b: 1 }])");
    let queue = Queue::open(&map.writer, 1, 1).unwrap();
    assert!(format!("{:?}", Lobby::<()>::of(&map.writer)).starts_with("Lobby { map: Map {"));
    assert!(format!("{queue:?} {map:?} {:?}", map.readers[0].sizes()).contains("Taker"));
}

#[test]
fn a_kept_find_holds_its_set_until_it_is_let_go() {
    // One key and two slots: an update needs the slot that isn't the key's.
    let ReaderMap { mut writer, mut readers } = ReaderMap::open(&Shape::new(1, 2, 2)).unwrap();
    let ticket = asked(&mut readers[0], 0);
    writer.fill(ticket, &[ONE]).unwrap();
    let mut rows = Rows::new();
    assert_eq!(readers[0].find_kept(0, &mut rows), Some(&[ONE][..]));
    assert_eq!(readers[0].find_kept(0, &mut rows), Some(&[ONE][..]));
    let two = Row { a: 2, b: 2 };
    writer.update(0, &[Delta::plus(two)]).unwrap();
    assert_eq!(writer.update(0, &[Delta::minus(two)]), Err(Fault::NoSlot));
    assert_eq!(readers[0].find_kept(0, &mut rows), Some(&[ONE, two][..]));
    writer.update(0, &[Delta::minus(two)]).unwrap();
    assert_eq!(writer.update(0, &[Delta::plus(two)]), Err(Fault::NoSlot));
    readers[0].let_go();
    writer.update(0, &[Delta::plus(two)]).unwrap();
    let mut keeping = readers[0].keeping();
    assert_eq!(keeping.find(0, &mut rows), Some(&[ONE, two][..]));
    writer.update(0, &[Delta::minus(two)]).unwrap();
    assert_eq!(writer.update(0, &[Delta::plus(two)]), Err(Fault::NoSlot));
    drop(keeping);
    writer.update(0, &[Delta::plus(two)]).unwrap();
    assert_eq!(readers[1].find(0, &mut rows), Some(&[ONE, two][..]));
}

#[test]
fn readers_are_told_that_the_writer_was_dropped() {
    let ReaderMap { mut writer, mut readers } = ReaderMap::open(&Shape::new(3, 5, 1)).unwrap();
    let lobby = Lobby::of(&writer);
    let mut rows = Rows::new();
    let Asked::Send(ticket) = readers[0].ask(0) else { panic!() };
    writer.fill(ticket, &[ONE]).unwrap();
    assert!(matches!(readers[0].ask(1), Asked::Send(_)));
    assert_eq!((readers[0].ask(1), readers[0].ask(0)), (Asked::Waiting, Asked::Filled));
    drop(writer);
    for key in 0..3 {
        assert_eq!(readers[0].ask(key), Asked::Closed);
        assert_eq!(lobby.ask(&mut readers[0], key, "nobody would wake it"), Asked::Closed);
        assert!(!lobby.is_awaited(key));
    }
    assert_eq!(readers[0].find(0, &mut rows), Some(&[ONE][..]));
    assert_eq!(readers[0].find(1, &mut rows), None);
    assert_eq!(readers[0].find_kept(2, &mut rows), None);
}

#[test]
fn a_replacement_puts_a_whole_set() {
    // One key and two slots: a replacement needs the slot that isn't the key's.
    let ReaderMap { mut writer, mut readers } = ReaderMap::open(&Shape::new(1, 2, 1)).unwrap();
    let two = Row { a: 2, b: 2 };
    assert_eq!(writer.replace(0, &[ONE]), Ok(Updated::Dropped));
    let ticket = asked(&mut readers[0], 0);
    writer.fill(ticket, &[ONE]).unwrap();
    assert_eq!(writer.replace(0, &[two, ONE]), Err(Fault::NotSorted));
    assert_eq!(writer.replace(0, &[ONE; 16]), Err(Fault::TooMany));
    assert_eq!(writer.replace(0, &[ONE, two]), Ok(Updated::Done));
    let pin = readers[0].pin(0).expect("the key is filled");
    assert_eq!(writer.replace(0, &[]), Ok(Updated::Done));
    assert_eq!(writer.replace(0, &[two]), Err(Fault::NoSlot));
    drop(pin);
    assert_eq!(writer.replace(0, &[two]), Ok(Updated::Done));
    assert_eq!(readers[0].find(0, &mut Rows::new()), Some(&[two][..]));
}

#[test]
fn many_keys_are_found_by_one_call() {
    let ReaderMap { mut writer, mut readers } = ReaderMap::open(&Shape::new(40, 42, 1)).unwrap();
    for key in (0..40).step_by(2) {
        let ticket = asked(&mut readers[0], key);
        writer.fill(ticket, &[Row { a: u64::from(key), b: 0 }]).unwrap();
    }
    let mut wanted: Vec<Wanted> = (0..40).rev().chain([4, 4, 5]).map(Wanted::new).collect();
    readers[0].find_each(&mut wanted);
    for one in &wanted {
        let row = Row { a: u64::from(one.key()), b: 0 };
        assert_eq!(one.rows(), (one.key() % 2 == 0).then_some(&[row][..]));
    }
    wanted[0].set(6);
    assert_eq!(wanted[0].rows(), None);
    readers[0].find_each(&mut wanted[..1]);
    assert_eq!(wanted[0].rows(), Some(&[Row { a: 6, b: 0 }][..]));
}

#[test]
fn rows_of_many_keys_go_to_one_slice() {
    let ReaderMap { mut writer, mut readers } = ReaderMap::open(&Shape::new(40, 42, 1)).unwrap();
    let before = Row { a: 77, b: 77 };
    for key in (0..40).step_by(2) {
        let ticket = asked(&mut readers[0], key);
        let set: Vec<Row> = (0..u64::from(key) % 6).map(|b| Row { a: u64::from(key), b }).collect();
        writer.fill(ticket, &set).unwrap();
    }
    for room in 0..5 {
        let mut wanted: Vec<Found> = (0..40).rev().chain([4, 4, 5]).map(Found::new).collect();
        let mut rows = vec![before; wanted.len() * room + 42];
        readers[0].find_each_rows(&mut wanted, &mut rows);
        for (at, one) in wanted.iter().enumerate() {
            let count = (one.key() % 2 == 0).then_some(one.key() as usize % 6);
            assert_eq!(one.count(), count);
            for (b, row) in rows[at * room..][..room].iter().enumerate() {
                let own = Row { a: u64::from(one.key()), b: b as u64 };
                assert_eq!(*row, if b < count.unwrap_or(0) { own } else { before });
            }
        }
        assert!(rows[wanted.len() * room..].iter().all(|row| *row == before));
    }
    readers[0].find_each_rows(&mut [], &mut []);
}

#[test]
#[should_panic(expected = "the map has 2 keys, and the key is 2")]
fn many_keys_of_which_one_is_too_large_panic() {
    let mut map = ReaderMap::open(&Shape::new(2, 4, 1)).unwrap();
    map.readers[0].find_each(&mut [0, 2].map(Wanted::new));
}
