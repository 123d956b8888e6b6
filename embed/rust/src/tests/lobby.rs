//! Who waits for a key is on its list until it is taken, and nobody is forgotten.
use super::{asked, two_maps, ONE};
use crate::*;
use std::sync::atomic::{AtomicU32, Ordering::SeqCst};
use std::sync::mpsc::{channel, Sender};
use std::thread;

#[test]
fn who_asked_before_the_fill_is_on_the_list() {
    let ReaderMap { mut writer, mut readers } = ReaderMap::open(&Shape::new(65, 3, 2)).unwrap();
    let lobby = Lobby::of(&writer);
    assert!(lobby.take(0).is_empty());
    let Asked::Send(ticket) = lobby.ask(&mut readers[0], 0, "sends") else { panic!() };
    assert_eq!(lobby.ask(&mut readers[1], 0, "waits"), Asked::Waiting);
    // Of the same group.
    let Asked::Send(other) = lobby.ask(&mut readers[1], 64, "other") else { panic!() };
    writer.fill(ticket, &[ONE]).unwrap();
    assert_eq!(lobby.ask(&mut readers[1], 0, "late"), Asked::Filled);
    assert_eq!([0, 1, 64].map(|key| lobby.is_awaited(key)), [true, false, true]);
    assert_eq!(lobby.take(0), ["sends", "waits"]);
    assert!(lobby.take(0).is_empty());
    writer.cancel_ticket(other).unwrap();
    assert_eq!(lobby.take(64), ["other"]);
    assert!(matches!(lobby.ask(&mut readers[0], 64, "again"), Asked::Send(_)));
}

#[test]
fn a_waiter_for_a_filled_key_is_dropped() {
    let ReaderMap { mut writer, mut readers } = ReaderMap::open(&Shape::new(1, 2, 1)).unwrap();
    writer.fill(asked(&mut readers[0], 0), &[]).unwrap();
    let lobby = Lobby::of(&writer);
    let (wake, woken) = channel::<()>();
    assert_eq!(lobby.ask(&mut readers[0], 0, wake), Asked::Filled);
    assert!(woken.recv().is_err());
}

#[test]
#[should_panic(expected = "the tokens are of two maps")]
fn a_lobby_is_for_readers_of_its_map() {
    let [one, mut two] = two_maps();
    let _ = Lobby::of(&one.writer).ask(&mut two.readers[0], 0, ());
}

#[test]
#[should_panic(expected = "the map has 1 keys, and the key is 1")]
fn a_lobby_has_no_list_of_a_key_that_is_not_there() {
    let [one, _] = two_maps();
    let _ = Lobby::<()>::of(&one.writer).take(1);
}

/// Threads that ask for each key over and over until it is filled, once, and its list taken: nobody is left on a list.
#[test]
fn nobody_comes_onto_a_list_after_the_fill() {
    const ALL: u32 = 3_000;
    let ReaderMap { mut writer, readers } = ReaderMap::open(&Shape { rows: 1, ..Shape::new(ALL, ALL, 3) }).unwrap();
    let Queue { mut taker, posters } = Queue::open(&writer, ALL, 3).unwrap();
    let lobby = Lobby::of(&writer);
    let mut taken = 0;
    thread::scope(|scope| {
        for (mut reader, mut poster) in readers.into_iter().zip(posters) {
            let lobby = &lobby;
            scope.spawn(move || {
                for key in 0..ALL {
                    loop {
                        match lobby.ask(&mut reader, key, ()) {
                            Asked::Send(ticket) => poster.post_waiting(ticket),
                            Asked::Waiting => {}
                            Asked::Filled => break,
                            Asked::Closed => panic!("the writer is there"),
                        }
                    }
                }
            });
        }
        for _ in 0..ALL {
            let ticket = loop {
                match taker.take() {
                    Ok(ticket) => break ticket,
                    Err(_) => thread::yield_now(),
                }
            };
            let key = ticket.key();
            writer.fill(ticket, &[]).expect("there is a slot");
            taken += lobby.take(key).len();
        }
    });
    assert!(taken >= ALL as usize);
    assert!((0..ALL).all(|key| !lobby.is_awaited(key)));
}

const KEYS: u32 = 3;
const GETS: u32 = 2_000;

/// What a thread gets keys with.
struct Client {
    reader: Reader,
    poster: Poster,
}

/// Gets one key after another, from the map or else from the dataflow; how often it sent a request.
fn get_all(mut client: Client, lobby: &Lobby<Sender<Row>>, dataflow: &thread::Thread) -> u32 {
    let (mut rows, mut sent) = (Rows::new(), 0);
    for key in (0..GETS).map(|get| get % KEYS) {
        let wanted = Row { a: u64::from(key), b: 0 };
        if let Some(found) = client.reader.find(key, &mut rows) {
            assert_eq!(found, [wanted]);
            continue;
        }
        let (tell, told) = channel();
        match lobby.ask(&mut client.reader, key, tell) {
            Asked::Send(ticket) => {
                sent += 1;
                client.poster.post_waiting(ticket);
                dataflow.unpark();
            }
            Asked::Waiting => {}
            Asked::Filled => continue,
            Asked::Closed => panic!("the writer is there"),
        }
        assert_eq!(told.recv(), Ok(wanted));
    }
    sent
}

#[test]
fn nobody_waits_in_vain_where_each_key_is_evicted_at_once() {
    let ReaderMap { mut writer, readers } = ReaderMap::open(&Shape::new(KEYS, KEYS + 5, 4)).unwrap();
    let Queue { mut taker, posters } = Queue::open(&writer, KEYS, 4).unwrap();
    let (lobby, dataflow, left) = (Lobby::of(&writer), thread::current(), AtomicU32::new(4));
    let (mut filled, mut told) = (0, 0);
    let sent: u32 = thread::scope(|scope| {
        let clients = readers.into_iter().zip(posters).map(|(reader, poster)| Client { reader, poster });
        let start = |client| {
            let (lobby, dataflow, left) = (&lobby, &dataflow, &left);
            scope.spawn(move || {
                let sent = get_all(client, lobby, dataflow);
                left.fetch_sub(1, SeqCst);
                dataflow.unpark();
                sent
            })
        };
        let clients: Vec<_> = clients.map(start).collect();
        while left.load(SeqCst) > 0 {
            let Ok(ticket) = taker.take() else {
                thread::park();
                continue;
            };
            let key = ticket.key();
            let row = Row { a: u64::from(key), b: 0 };
            writer.fill(ticket, &[row]).expect("there is a slot");
            filled += 1;
            for tell in lobby.take(key) {
                tell.send(row).expect("it waits");
                told += 1;
            }
            writer.evict(key);
        }
        clients.into_iter().map(|client| client.join().expect("each get is answered")).sum()
    });
    assert_eq!(sent, filled);
    assert!(told >= filled && filled >= KEYS);
}
