//! Two readers and a dataflow over one map. A reader that finds a key missing requests it and sleeps; the first to do so
//! posts its ticket, and the dataflow, which sleeps while nothing is posted, fills the key and wakes those who wait.
use nr::{Asked, Lobby, Poster, Queue, Reader, ReaderMap, Row, Rows, Shape, Taker, Writer};
use std::error::Error;
use std::thread::{self, Thread};

const KEYS: u32 = 1000;

fn rows_of(key: u32) -> [Row; 2] {
    let k = u64::from(key);
    [Row { a: k, b: k * k }, Row { a: k, b: k * k * k }]
}

fn read(mut reader: Reader, mut poster: Poster, lobby: &Lobby<Thread>, dataflow: &Thread) {
    let mut rows = Rows::new();
    for key in 0..KEYS {
        while reader.find(key, &mut rows).is_none() {
            match lobby.ask(&mut reader, key, thread::current()) {
                Asked::Send(ticket) => {
                    poster.post_waiting(ticket);
                    dataflow.unpark();
                }
                Asked::Waiting => {}
                Asked::Filled => continue,
                Asked::Closed => panic!("the dataflow is gone"),
            }
            thread::park();
        }
        assert_eq!(rows.as_slice(), rows_of(key));
    }
}

/// Fills each key once, as it is requested.
fn fill(writer: &mut Writer, taker: &mut Taker, lobby: &Lobby<Thread>) -> Result<(), Box<dyn Error>> {
    let mut filled = 0;
    while filled < KEYS {
        let Ok(ticket) = taker.take() else {
            thread::park();
            continue;
        };
        let key = ticket.key();
        writer.fill(ticket, &rows_of(key))?;
        lobby.take(key).iter().for_each(Thread::unpark);
        filled += 1;
    }
    Ok(())
}

fn main() -> Result<(), Box<dyn Error>> {
    let ReaderMap { mut writer, readers } = ReaderMap::open(&Shape::new(KEYS, KEYS + 3, 2))?;
    let Queue { mut taker, posters } = Queue::open(&writer, KEYS, 2)?;
    let (lobby, dataflow) = (&Lobby::of(&writer), &thread::current());
    thread::scope(|scope| {
        for (reader, poster) in readers.into_iter().zip(posters) {
            scope.spawn(move || read(reader, poster, lobby, dataflow));
        }
        fill(&mut writer, &mut taker, lobby)
    })?;
    assert!(taker.take().is_err());
    println!("each key was sent and filled once");
    Ok(())
}
