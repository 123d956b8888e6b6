//! Tickets and events come to one thread, each once, and none while it sleeps is forgotten.
use super::asked;
use crate::*;
use std::thread;

#[test]
fn tickets_and_events_come_in_turn() {
    let ReaderMap { writer, mut readers } = ReaderMap::open(&Shape::new(3, 3, 1)).unwrap();
    let Inbox { mut taker, mut posters, events } = Inbox::open(&writer, 3, 1).unwrap();
    for key in 0..3 {
        posters[0].post_waiting(asked(&mut readers[0], key));
    }
    events.send('a').unwrap();
    let came: Vec<_> = (0..4).map(|_| taker.wait().expect("there are senders")).collect();
    let is_ticket: Vec<_> = came.iter().map(|it| matches!(it, Arrival::Ticket(_))).collect();
    assert_eq!(is_ticket, [true, false, true, true]);
    assert_eq!(came[1], Arrival::Event('a'));
    let keys = came.iter().filter_map(|it| if let Arrival::Ticket(ticket) = it { Some(ticket.key()) } else { None });
    assert_eq!(keys.collect::<Vec<_>>(), [0, 1, 2]);
}

#[test]
fn it_ends_after_the_last_of_the_senders() {
    let ReaderMap { writer, mut readers } = ReaderMap::open(&Shape::new(1, 3, 1)).unwrap();
    let Inbox { mut taker, mut posters, events } = Inbox::open(&writer, 1, 1).unwrap();
    posters[0].post_waiting(asked(&mut readers[0], 0));
    let other = events.clone();
    drop(events);
    other.send(()).unwrap();
    drop((other, posters));
    assert!(taker.wait().is_some() && taker.wait().is_some());
    assert_eq!(taker.wait(), None);
}

#[test]
fn an_event_comes_back_from_an_inbox_that_is_gone() {
    let ReaderMap { writer, .. } = ReaderMap::open(&Shape::new(1, 3, 1)).unwrap();
    let Inbox { taker, posters: _posters, events } = Inbox::open(&writer, 1, 1).unwrap();
    drop(taker);
    assert_eq!(events.send(7), Err(7));
}

#[test]
fn an_inbox_has_the_sizes_of_a_queue() {
    let ReaderMap { writer, .. } = ReaderMap::open(&Shape::new(1, 3, 1)).unwrap();
    assert_eq!(Inbox::<()>::open(&writer, 0, 1).err(), Some(Fault::BadSize));
}

/// Each thread sends a ticket or an event and waits for its answer, so that the inbox's thread sleeps again and again.
#[test]
fn nobody_rings_in_vain() {
    const THREADS: u32 = 3;
    const EACH: u32 = 2_000;
    let ReaderMap { mut writer, readers } = ReaderMap::open(&Shape::new(THREADS, 9, THREADS)).unwrap();
    let Inbox { mut taker, posters, events } = Inbox::open(&writer, THREADS, THREADS).unwrap();
    let lobby: Lobby<thread::Thread> = Lobby::of(&writer);
    thread::scope(|scope| {
        for ((mut reader, mut poster), key) in readers.into_iter().zip(posters).zip(0..) {
            let (lobby, events) = (&lobby, events.clone());
            scope.spawn(move || {
                for _ in 0..EACH {
                    let Asked::Send(ticket) = lobby.ask(&mut reader, key, thread::current()) else { panic!() };
                    poster.post_waiting(ticket);
                    while lobby.is_awaited(key) {
                        thread::park();
                    }
                    events.send(key).unwrap();
                }
            });
        }
        drop(events);
        let (mut filled, mut heard) = (0, 0);
        while let Some(arrival) = taker.wait() {
            match arrival {
                Arrival::Event(_) => heard += 1,
                Arrival::Ticket(ticket) => {
                    let key = ticket.key();
                    writer.fill(ticket, &[]).expect("there is a slot");
                    writer.evict(key);
                    filled += 1;
                    lobby.take(key).iter().for_each(thread::Thread::unpark);
                }
            }
        }
        assert_eq!((filled, heard), (THREADS * EACH, THREADS * EACH));
    });
}
