//! Values are borrowed in place, and each is dropped once, when nobody holds it and none can find it.
use crate::*;
use std::hint::black_box;
use std::mem;
use std::panic::{catch_unwind, resume_unwind, AssertUnwindSafe};
use std::sync::atomic::{AtomicBool, AtomicU64, Ordering::Relaxed};
use std::sync::Arc;
use std::thread;

/// How many texts were made and how many dropped.
#[derive(Default)]
struct Counts {
    made: AtomicU64,
    dropped: AtomicU64,
}

impl Counts {
    fn text(&self, number: u64) -> Text<'_> {
        self.made.fetch_add(1, Relaxed);
        Text { number, bytes: vec![number as u8; number as usize % 300], counts: self }
    }

    fn made(&self) -> u64 {
        self.made.load(Relaxed)
    }

    fn dropped(&self) -> u64 {
        self.dropped.load(Relaxed)
    }
}

/// A text whose length and bytes its number tells, and which shows where it was dropped.
struct Text<'a> {
    number: u64,
    bytes: Vec<u8>,
    counts: &'a Counts,
}

impl Text<'_> {
    /// The number, of a text that is as it was made.
    fn read(&self) -> u64 {
        assert_eq!(self.bytes.len(), self.number as usize % 300);
        assert!(self.bytes.iter().all(|byte| *byte == self.number as u8));
        self.number
    }
}

impl Drop for Text<'_> {
    fn drop(&mut self) {
        self.read();
        self.counts.dropped.fetch_add(1, Relaxed);
        self.bytes.fill(!(self.number as u8));
        self.number = u64::MAX;
        black_box(self);
    }
}

/// Fills a key that is a hole.
fn fill<'a>(writer: &mut ValueWriter<Text<'a>>, reader: &mut ValueReader<Text<'a>>, key: u32, text: Text<'a>) {
    let Asked::Send(ticket) = reader.ask(key) else { panic!("somebody asked for key {key}") };
    writer.fill(ticket, text).expect("there is a slot");
}

/// The number of a key's text.
fn number(reader: &mut ValueReader<Text<'_>>, key: u32) -> Option<u64> {
    reader.find(key).map(|text| text.read())
}

#[test]
fn a_borrowed_value_stays_and_is_dropped_once_it_is_let_go() {
    let counts = Counts::default();
    let ValueMap { mut writer, mut readers } = ValueMap::open(1, 4, 2).unwrap();
    let [one, two] = &mut readers[..] else { panic!() };
    assert!(one.find(0).is_none() && one.find_kept(0).is_none() && writer.look(0).is_none());
    fill(&mut writer, one, 0, counts.text(1));
    let text = one.find(0).expect("the key is filled");
    assert_eq!(writer.replace(0, counts.text(2)).unwrap(), Updated::Done);
    assert_eq!(writer.replace(0, counts.text(3)).unwrap(), Updated::Done);
    assert_eq!((text.read(), number(two, 0), counts.dropped()), (1, Some(3), 1));
    drop(text);
    assert!(writer.evict(0));
    assert!(!writer.evict(0));
    assert_eq!((number(one, 0), counts.dropped()), (None, 3));
}

#[test]
fn a_kept_value_is_held_until_the_next_call() {
    let counts = Counts::default();
    let ValueMap { mut writer, mut readers } = ValueMap::open(2, 4, 1).unwrap();
    let reader = &mut readers[0];
    for key in 0..2 {
        fill(&mut writer, reader, key, counts.text(key.into()));
    }
    for key in [0, 0, 1, 1, 0] {
        assert_eq!(reader.find_kept(key).map(Text::read), Some(key.into()));
    }
    writer.replace(0, counts.text(2)).unwrap();
    writer.replace(0, counts.text(3)).unwrap();
    assert_eq!(counts.dropped(), 1);
    assert_eq!(reader.find_kept(0).map(Text::read), Some(3));
    writer.evict(0);
    assert_eq!((counts.dropped(), reader.find_kept(0).map(Text::read)), (2, None));
    assert_eq!(reader.find_kept(1).map(Text::read), Some(1));
    reader.let_go();
    writer.evict(1);
    assert_eq!((counts.dropped(), writer.reap().map(|text| text.read())), (3, Some(1)));
    assert!(writer.reap().is_none());
    assert_eq!(counts.dropped(), 4);
}

#[test]
fn a_kept_find_after_a_forgotten_borrow_is_of_what_that_held() {
    let counts = Counts::default();
    let ValueMap { mut writer, mut readers } = ValueMap::open(1, 3, 1).unwrap();
    fill(&mut writer, &mut readers[0], 0, counts.text(1));
    assert_eq!(readers[0].find_kept(0).map(Text::read), Some(1));
    readers[0].let_go();
    writer.replace(0, counts.text(2)).unwrap();
    assert_eq!(counts.dropped(), 1);
    mem::forget(readers[0].find(0));
    assert_eq!(readers[0].find_kept(0).map(Text::read), Some(2));
    writer.evict(0);
    assert_eq!((counts.dropped(), readers[0].find_kept(0).is_none()), (1, true));
    assert_eq!(writer.reap().map(|text| text.read()), Some(2));
}

/// Counts its drop, and panics then where it is to.
struct Fragile<'a>(bool, &'a AtomicU64);

impl Drop for Fragile<'_> {
    fn drop(&mut self) {
        self.1.fetch_add(1, Relaxed);
        if self.0 {
            // Without the hook's message.
            resume_unwind(Box::new("a drop"));
        }
    }
}

#[test]
fn a_drop_that_panics_at_the_maps_end_leaves_nothing_undropped() {
    let drops = AtomicU64::new(0);
    let ValueMap { mut writer, mut readers } = ValueMap::open(10, 12, 1).unwrap();
    for key in 0..10 {
        let Asked::Send(ticket) = readers[0].ask(key) else { panic!() };
        writer.fill(ticket, Fragile(key % 3 == 1, &drops)).expect("there is a slot");
    }
    let panicked = catch_unwind(AssertUnwindSafe(|| drop((writer, readers))));
    assert_eq!(panicked.unwrap_err().downcast_ref(), Some(&"a drop"));
    assert_eq!(drops.into_inner(), 10);
}

#[test]
fn a_refused_value_comes_back() {
    let counts = Counts::default();
    let ValueMap { mut writer, mut readers } = ValueMap::open(2, 1, 1).unwrap();
    assert_eq!(writer.replace(0, counts.text(1)).unwrap(), Updated::Dropped);
    assert_eq!(counts.dropped(), 1);
    let [one, two] = [0, 1].map(|key| {
        let Asked::Send(ticket) = readers[0].ask(key) else { panic!() };
        ticket
    });
    writer.fill(one, counts.text(2)).unwrap();
    let refusal = writer.fill(two, counts.text(3)).unwrap_err();
    assert_eq!(refusal.to_string(), "key 1 is not filled by this: each slot is a filled key's");
    assert_eq!((refusal.fault, refusal.ticket.key(), refusal.value.read()), (Fault::AllFilled, 1, 3));
    let refusal = writer.replace(0, refusal.value).unwrap_err();
    assert_eq!(refusal.to_string(), "the value is not replaced: each slot is a filled key's");
    assert_eq!((refusal.value.read(), writer.look(0).map(Text::read)), (3, Some(2)));
    assert_eq!(counts.dropped(), 1);
    drop(refusal);
    writer.cancel(1);
    drop((writer, readers));
    assert_eq!((counts.made(), counts.dropped()), (3, 3));
}

#[test]
fn an_update_makes_a_value_of_the_old_one() {
    let ValueMap { mut writer, mut readers } = ValueMap::open(1, 3, 1).unwrap();
    assert_eq!(writer.update(0, |_: &String| panic!("it is a hole")).unwrap(), Updated::Dropped);
    let Asked::Send(ticket) = readers[0].ask(0) else { panic!() };
    writer.fill(ticket, "a".to_owned()).unwrap();
    for _ in 0..3 {
        assert_eq!(writer.update(0, |text| text.clone() + "b").unwrap(), Updated::Done);
    }
    assert_eq!((readers[0].ask(0), readers[0].find(0).as_deref()), (Asked::Filled, Some(&"abbb".to_owned())));
    assert_eq!(writer.state(0), KeyKind::Rows);
}

#[test]
fn shared_pointers_are_counted_down_once_each() {
    let shared = Arc::new([7; 5]);
    let ValueMap { mut writer, mut readers } = ValueMap::open(3, 7, 1).unwrap();
    for key in 0..3 {
        let Asked::Send(ticket) = readers[0].ask(key) else { panic!() };
        writer.fill(ticket, Arc::clone(&shared)).unwrap();
    }
    assert_eq!((**readers[0].find(2).expect("the key is filled"), Arc::strong_count(&shared)), ([7; 5], 4));
    for _ in 0..10 {
        writer.replace(1, Arc::clone(&shared)).unwrap();
    }
    assert_eq!(Arc::strong_count(&shared), 4);
    drop((writer, readers));
    assert_eq!(Arc::strong_count(&shared), 1);
}

#[test]
fn the_last_token_drops_what_is_left() {
    let counts = Counts::default();
    let ValueMap { mut writer, mut readers } = ValueMap::open(3, 6, 2).unwrap();
    for key in 0..3 {
        fill(&mut writer, &mut readers[0], key, counts.text(key.into()));
    }
    let text = readers[0].find(2).expect("the key is filled");
    writer.replace(2, counts.text(9)).unwrap();
    drop(writer);
    assert_eq!((text.read(), counts.dropped()), (2, 0));
    drop(text);
    let mut last = readers.pop().expect("there are two");
    drop(readers);
    assert_eq!((number(&mut last, 2), last.find_kept(1).map(Text::read), counts.dropped()), (Some(9), Some(1), 0));
    drop(last);
    assert_eq!((counts.made(), counts.dropped()), (4, 4));
}

#[test]
fn a_dropped_reader_lets_go_and_is_opened_again() {
    let counts = Counts::default();
    let ValueMap { mut writer, mut readers } = ValueMap::open(1, 4, 2).unwrap();
    assert_eq!(writer.open_reader().err(), Some(Fault::NoReader));
    fill(&mut writer, &mut readers[0], 0, counts.text(1));
    assert_eq!(readers[1].find_kept(0).map(Text::read), Some(1));
    mem::forget(readers[0].find(0));
    drop(readers);
    writer.replace(0, counts.text(2)).unwrap();
    assert_eq!(counts.dropped(), 1);
    let mut readers = [0, 1].map(|_| writer.open_reader().expect("it was dropped"));
    assert_eq!(writer.open_reader().err(), Some(Fault::NoReader));
    assert_eq!(readers.each_mut().map(|reader| number(reader, 0)), [Some(2); 2]);
}

#[test]
fn a_lobby_and_a_queue_are_of_a_map_of_values() {
    let ValueMap { mut writer, mut readers } = ValueMap::open(1, 3, 1).unwrap();
    let Queue { mut taker, mut posters } = Queue::open(writer.writer(), 1, 1).unwrap();
    let lobby = Lobby::of(writer.writer());
    let Asked::Send(ticket) = readers[0].ask_in(&lobby, 0, "waits") else { panic!() };
    posters[0].post(ticket).unwrap();
    let ticket = taker.take().expect("it was posted");
    assert_eq!(writer.cancel_ticket(ticket), Ok(()));
    let Asked::Send(ticket) = readers[0].ask(0) else { panic!() };
    writer.fill(ticket, [1, 2, 3]).unwrap();
    assert_eq!(lobby.take(0), ["waits"]);
    assert_eq!(format!("{:?}", readers[0].find(0)), "Some([1, 2, 3])");
    assert!(format!("{writer:?} {readers:?}").starts_with("ValueWriter { writer: Writer {"));
}

#[test]
fn shared_values_and_what_borrows_them_go_between_threads() {
    fn goes<T: Send>(token: T) -> T {
        token
    }
    let ValueMap { writer, readers } = goes(ValueMap::open(1, 3, 1).unwrap());
    let (mut writer, mut reader) = (goes(writer), goes(readers).remove(0));
    let Asked::Send(ticket) = reader.ask(0) else { panic!() };
    writer.fill(ticket, "a text".to_owned()).unwrap();
    let text = reader.find(0).expect("the key is filled");
    thread::scope(|scope| {
        scope.spawn(|| assert_eq!(text.len(), 6));
    });
    thread::spawn(move || drop(writer)).join().unwrap();
    thread::scope(|scope| {
        scope.spawn(move || assert_eq!(*goes(text), "a text"));
    });
}

/// Looks keys up until it is told to end, some by borrows that outlast the next, and reads each text whole.
fn read_on(reader: &mut ValueReader<Text<'_>>, keys: u32, ended: &AtomicBool) -> u64 {
    let (mut found, mut key) = (0, 0);
    while found < 1_000 || !ended.load(Relaxed) {
        key = (key + 7) % keys;
        found += u64::from(reader.find_kept(key).map(Text::read).is_some());
        if let Some(text) = reader.find(key) {
            text.read();
            thread::yield_now();
            text.read();
            found += 1;
        }
    }
    found
}

#[test]
fn nothing_is_read_after_it_was_freed_and_nothing_leaks_over_millions_of_updates() {
    const KEYS: u32 = 13;
    const READERS: u32 = 3;
    const SLOTS: u32 = KEYS + READERS + 2;
    const UPDATES: u64 = 2_000_000;
    let counts = Counts::default();
    let ended = AtomicBool::new(false);
    // One reader is the writer's own, for its requests.
    let ValueMap { mut writer, mut readers } = ValueMap::open(KEYS, SLOTS, READERS + 1).unwrap();
    let mut asker = readers.pop().expect("there are four");
    for key in 0..KEYS {
        fill(&mut writer, &mut asker, key, counts.text(key.into()));
    }
    thread::scope(|scope| {
        for reader in &mut readers {
            scope.spawn(|| assert!(read_on(reader, KEYS, &ended) >= 1_000));
        }
        for number in 0..UPDATES {
            let key = (number * 5 % u64::from(KEYS)) as u32;
            if number % 8 == 0 {
                assert!(writer.evict(key));
                fill(&mut writer, &mut asker, key, counts.text(number));
            } else {
                assert_eq!(writer.replace(key, counts.text(number)).unwrap(), Updated::Done);
            }
            assert!(counts.made() - counts.dropped() <= SLOTS.into());
        }
        ended.store(true, Relaxed);
    });
    // Each reader may hold one still.
    while writer.reap().is_some() {}
    assert!(counts.made() - counts.dropped() <= (KEYS + READERS).into());
    drop((writer, asker, readers));
    assert_eq!(counts.made(), UPDATES + u64::from(KEYS));
    assert_eq!(counts.dropped(), counts.made());
}
