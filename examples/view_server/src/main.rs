//! Serves the view `votes by article` of a SQLite database, which it holds in part, over the Redis protocol.
mod helpers;
mod log;
mod session;
mod stats;

use base::Base;
use edge_common::command::Bounds;
use edge_common::ending::Ending;
use edge_common::event_loop::EventLoop;
use edge_common::guest::Host;
use edge_common::listener::{Door, Listener, Refusal};
use edge_common::session::Limits;
use nr::View;
use session::Service;
use std::sync::{mpsc::channel, Arc, Mutex};
use std::thread::{self, Builder, JoinHandle};
use std::{env, error::Error, net::TcpListener, time::Duration};

/// What the threads share.
pub struct Shared {
    view: View<String>,
    host: Host,
    door: Door,
    limits: Limits,
    /// How long a client may wait for another's load.
    busy: Duration,
    /// The listener's, and then those of each worker.
    counts: Vec<stats::Counts>,
}

/// Of a command.
const BOUNDS: Bounds = Bounds { words: 255, bytes: 65_536 };

/// How many threads vote: while one writes, the others have what comes before and after that.
const VOTERS: usize = 4;
/// How long clients are waited for at the end.
const GRACE: Duration = Duration::from_secs(3);

/// Each is followed by a number, or has that of DEFAULTS.
const OPTIONS: &str = "--port --limit --errands --clients --idle --half --busy --delay";
const DEFAULTS: [u64; 8] = [0, 10_000, 16, 10_000, 300_000, 10_000, 5_000, 0];

/// The database, the address, and the numbers.
fn options(mut words: impl Iterator<Item = String>) -> Option<(String, String, [u64; 8])> {
    let (path, mut address, mut numbers) = (words.next()?, String::from("127.0.0.1"), DEFAULTS);
    while let Some(name) = words.next() {
        match OPTIONS.split(' ').position(|option| option == name) {
            Some(place) => numbers[place] = words.next()?.parse().ok()?,
            None if name == "--address" => address = words.next()?,
            None => return None,
        }
    }
    Some((path, address, numbers))
}

type Made<T> = Result<T, String>;

/// Threads that serve clients, that vote and that load: as many of each as the system has, or fewer.
fn begin(
    shared: &'static Shared,
    listener: Listener,
    workers: usize,
    loaders: usize,
    open: impl Fn() -> Made<Base>,
) -> Made<Vec<JoinHandle<()>>> {
    let ((loads, to_load), (votes, to_vote), (serves, served)) = (channel(), channel(), channel());
    let (to_load, to_vote, writes) = (share(to_load), share(to_vote), share(open()?));
    let serving = helpers::start("worker", workers, |number| {
        let reader = shared.view.reader().expect("there is a reader for each worker");
        let counts = &shared.counts[number + 1];
        let service = Service { reader, counts, shared, loads: loads.clone(), votes: votes.clone() };
        let (event_loop, serves) = (EventLoop::new().map_err(|why| why.to_string())?, serves.clone());
        Ok(move || {
            shared.door.leads_to(event_loop.mailbox());
            _ = serves.send(());
            event_loop.run(&shared.door, service, shared.limits, BOUNDS);
        })
    });
    serving.iter().for_each(|_| _ = served.recv());
    let listens = move || listener.run(&shared.door, |refusal| refuse(shared, refusal));
    Builder::new().name("listener".into()).spawn(listens).map_err(|why| why.to_string())?;
    let voting = helpers::start("voter", VOTERS, |_| {
        let (votes, writes) = (Arc::clone(&to_vote), Arc::clone(&writes));
        Ok(move || helpers::vote(&votes, &writes, shared))
    });
    let loading = helpers::start("loader", loaders, |_| {
        let (loads, base) = (Arc::clone(&to_load), open()?);
        Ok(move || helpers::load(&loads, base))
    });
    let all = [serving, voting, loading];
    let are_there = all.iter().all(|threads| !threads.is_empty());
    are_there.then(|| all.into_iter().flatten().collect()).ok_or("there are no threads for clients".into())
}

fn share<T>(it: T) -> Arc<Mutex<T>> {
    Arc::new(Mutex::new(it))
}

fn refuse(shared: &Shared, refusal: &Refusal) {
    match refusal {
        Refusal::NoRoom => {
            log::say("client", "there are clients enough");
            shared.counts[0].up(stats::Count::Refused);
        }
        Refusal::Fault(why) => log::say("client", &why.to_string()),
    }
}

fn main() -> Result<(), Box<dyn Error>> {
    let told = options(env::args().skip(1)).ok_or_else(|| format!("DATABASE --address TEXT {OPTIONS}"))?;
    let (path, address, [port, limit, loaders, most_clients, idle, half, busy, delay]) = told;
    let open_base = || Base::open(&path, busy, delay);
    let workers = thread::available_parallelism().map_or(4, usize::from);
    let [idle, half, busy_time] = [idle, half, busy].map(Duration::from_millis);
    let shared: &Shared = Box::leak(Box::new(Shared {
        view: View::builder().capacity(limit as usize).threads(workers as u32).open()?,
        host: Host { name: "view_server", version: env!("CARGO_PKG_VERSION"), password: None },
        door: Door::new(most_clients as usize),
        limits: Limits { idle, half },
        busy: busy_time,
        counts: (0..=workers).map(|_| stats::Counts::default()).collect(),
    }));
    let listener = Listener::Tcp(TcpListener::bind((&address[..], u16::try_from(port)?))?);
    let ending = Ending::new()?;
    let place = listener.place()?;
    // Closes after all others: of two that close at the same time neither is the last, and the base's log would stay.
    let last = open_base()?;
    let threads = begin(shared, listener, workers, loaders as usize, open_base)?;
    println!("listening on {place}");
    ending.wait();
    shared.door.shut(GRACE);
    // Who loads and votes ends when no worker is left to ask for that.
    threads.into_iter().for_each(|thread| _ = thread.join());
    drop(last);
    Ok(())
}
