//! Queries run side by side, and what each came to is one event of the inbox.
use super::asked;
use crate::*;
use std::sync::{mpsc, Arc, Barrier};

const KEYS: u32 = 4;

type Loaded = (Ticket, Option<[Row; 1]>);

fn row_of(key: u32) -> [Row; 1] {
    [Row { a: u64::from(key), b: 9 }]
}

/// A map whose keys were all missed, and their inbox, which nobody can send to any more.
fn all_missed() -> (Writer, Vec<Reader>, InboxTaker<Loaded>) {
    let ReaderMap { writer, mut readers } = ReaderMap::open(&Shape::new(KEYS, KEYS + 2, 1)).unwrap();
    let Inbox { taker, mut posters, events: _ } = Inbox::open(&writer, KEYS, 1).unwrap();
    (0..KEYS).for_each(|key| posters[0].post_waiting(asked(&mut readers[0], key)));
    (writer, readers, taker)
}

/// Gives each ticket to the loaders, and fills the key of each that comes back with rows. The keys in that order, and those
/// whose query failed.
fn serve(writer: &mut Writer, taker: &mut InboxTaker<Loaded>, loaders: &Loaders<Loaded>) -> (Vec<u32>, Vec<u32>) {
    let (mut filled, mut failed) = (vec![], vec![]);
    while let Some(arrival) = taker.wait() {
        match arrival {
            Arrival::Ticket(ticket) => loaders.give(ticket).unwrap(),
            Arrival::Event((ticket, Some(rows))) => {
                filled.push(ticket.key());
                writer.fill(ticket, &rows).unwrap();
            }
            Arrival::Event((ticket, None)) => {
                failed.push(ticket.key());
                writer.cancel_ticket(ticket).unwrap();
            }
        }
    }
    (filled, failed)
}

/// No query ends before all have begun, and the inbox ends after the last of them.
#[test]
fn queries_are_under_way_side_by_side() {
    let (mut writer, mut readers, mut taker) = all_missed();
    let all = Arc::new(Barrier::new(KEYS as usize));
    let query = |all: Arc<Barrier>| {
        move |ticket: Ticket| {
            all.wait();
            let rows = row_of(ticket.key());
            (ticket, Some(rows))
        }
    };
    let loaders = Loaders::start(&taker, (0..KEYS).map(|_| query(Arc::clone(&all))));
    let (mut filled, failed) = serve(&mut writer, &mut taker, &loaders);
    filled.sort_unstable();
    assert_eq!((filled, failed), ((0..KEYS).collect(), vec![]));
    let mut rows = Rows::new();
    for key in 0..KEYS {
        assert_eq!(readers[0].find(key, &mut rows), Some(&row_of(key)[..]));
    }
}

/// One thread loads in the order of the tickets, and who asked for a key whose query failed may ask anew.
#[test]
fn a_query_that_fails_takes_its_request_back() {
    let (mut writer, mut readers, mut taker) = all_missed();
    let query = |ticket: Ticket| {
        let rows = (ticket.key() != 1).then(|| row_of(ticket.key()));
        (ticket, rows)
    };
    let loaders = Loaders::start(&taker, [query]);
    assert_eq!(serve(&mut writer, &mut taker, &loaders), (vec![0, 2, 3], vec![1]));
    let ticket = asked(&mut readers[0], 1);
    assert_eq!(ticket.number(), 1);
    assert_eq!(loaders.give(ticket).map_err(|ticket| ticket.key()), Err(1));
}

/// A slow query holds up no other: the first key's rows come once all others are filled.
#[test]
fn a_slow_query_holds_up_no_other() {
    let (mut writer, _readers, mut taker) = all_missed();
    let (others, done) = mpsc::channel();
    let mut done = Some(done);
    let queries = (0..2).map(|_| {
        let mut done = done.take();
        let others = others.clone();
        move |ticket: Ticket| {
            match done.take() {
                Some(done) => (1..KEYS).for_each(|_| done.recv().unwrap()),
                None => others.send(()).unwrap(),
            }
            let rows = row_of(ticket.key());
            (ticket, Some(rows))
        }
    });
    let loaders = Loaders::start(&taker, queries);
    let (filled, failed) = serve(&mut writer, &mut taker, &loaders);
    assert_eq!((filled.len(), failed.len()), (KEYS as usize, 0));
}

#[test]
fn a_ticket_comes_back_from_loaders_without_a_thread() {
    let (_writer, _readers, mut taker) = all_missed();
    let loaders = Loaders::start(&taker, [] as [fn(Ticket) -> Loaded; 0]);
    let Some(Arrival::Ticket(ticket)) = taker.wait() else { panic!() };
    assert_eq!(loaders.give(ticket).map_err(|ticket| ticket.key()), Err(0));
}
