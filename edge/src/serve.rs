//! How the parts of an edge are put together.
use crate::base::Base;
use crate::configuration::{Configuration, Listen};
use crate::dataflow::{Dataflow, Event};
use crate::ending::{self, Ending};
use crate::fault::End;
use crate::listener::{Door, Listener, Refusal};
use crate::pq::Fault;
use crate::session::{Service, BOUNDS};
use crate::shared::Shared;
use crate::slot::{self, Lasting};
use crate::stats::Count;
use crate::upquery::{self, Queue};
use crate::{metrics, needs, stream::Stream, tables, writes};
use edge_common::{event_loop::EventLoop, http};
use std::net::{SocketAddr, TcpListener};
use std::sync::{atomic::Ordering::SeqCst, mpsc, mpsc::SyncSender, Mutex};
use std::{fs, io, process, process::ExitCode, thread, thread::Builder, time::Duration};

/// The most events that the dataflow hasn't taken: who has more waits.
const EVENTS: usize = 1024;
/// How long clients, and then PostgreSQL, are waited for at the end.
const GRACE: Duration = Duration::from_secs(3);

/// Until the edge is told to end. The status is 1 where something lacks, and no edge begins, and 2 where nobody can tell.
pub fn serve(configuration: Configuration) -> Result<ExitCode, String> {
    let base = Base::new(&configuration.address()?, configuration.source.deadline());
    let shared = match shared(configuration, base) {
        Err(End::Refused(why)) => {
            eprintln!("edge: {why}");
            return Ok(ExitCode::FAILURE);
        }
        Err(End::Broken(why) | End::Lost(why)) => return Err(why),
        Err(End::Over) => return Ok(ExitCode::SUCCESS),
        Ok(shared) => shared,
    };
    let listeners = listeners(&shared.configuration.listen)?;
    let metrics = shared.configuration.listen.metrics.map(TcpListener::bind).transpose();
    let metrics = metrics.map_err(|fault| format!("the address of metrics: {fault}"))?;
    let ending = Ending::new().map_err(|fault| fault.to_string())?;
    // They are there until the process ends, whatever waits then.
    let (shared, listeners): (&_, &[_]) = (Box::leak(Box::new(shared)), Box::leak(listeners.into()));
    let door: &Door = Box::leak(Box::new(Door::new(shared.configuration.listen.clients.into())));
    begin(shared, door, listeners, metrics).map_err(|fault| format!("a thread: {fault}"))?;
    for listener in listeners {
        eprintln!("edge: listens on {}", listener.place().map_err(|fault| fault.to_string())?);
    }
    tell_systemd("READY=1");
    ending.wait();
    eprintln!("edge: {}", End::Over);
    tell_systemd("STOPPING=1");
    process::exit(end(shared, door, 0))
}

fn listeners(listen: &Listen) -> Result<Vec<Listener>, String> {
    let at = SocketAddr::new(listen.address, listen.port);
    let mut all = vec![Listener::tcp(at).map_err(|fault| format!("{at}: {fault}"))?];
    if let Some(path) = &listen.unix_socket {
        all.push(Listener::unix(path).map_err(|fault| format!("{}: {fault}", path.display()))?);
    }
    Ok(all)
}

fn shared(configuration: Configuration, base: Base) -> Result<Shared, End> {
    let unknown = |fault: Fault| End::Broken(fault.to_string());
    let mut connection = base.as_it_is().map_err(unknown)?;
    slot::refused(needs::lacking(&configuration, &mut connection).map_err(unknown)?)?;
    let tables = tables::of_views(&configuration.views, &mut connection)?;
    Shared::new(configuration, base, tables).map_err(End::Broken)
}

/// All threads.
fn begin(
    shared: &'static Shared,
    door: &'static Door,
    listeners: &'static [Listener],
    metrics: Option<TcpListener>,
) -> io::Result<()> {
    let queue: &Queue = Box::leak(Box::default());
    let (events, taken) = mpsc::sync_channel(EVENTS);
    for _ in 0..shared.configuration.source.connections {
        let events = events.clone();
        run("upquery", move || upquery::run(shared, queue, events))?;
    }
    let for_watch = events.clone();
    run("watch", move || watch(shared, for_watch))?;
    run("dataflow", move || {
        if let Err(why) = Dataflow::new(shared, queue).run(taken) {
            eprintln!("edge: {why}");
            process::exit(end(shared, door, 1));
        }
    })?;
    if let Some(listener) = metrics {
        run("metrics", move || http::run(&listener, |path| metrics::page(path, shared)))?;
    }
    begin_workers(shared, door, &events)?;
    for listener in listeners {
        let refuse = |refusal: &Refusal| {
            if let Refusal::NoRoom = refusal {
                shared.work.up(Count::Refused);
            }
        };
        run("listener", move || listener.run(door, refuse))?;
    }
    run("stream", move || Stream::new(shared, events).run())
}

/// Those who serve clients, and those who write for them.
fn begin_workers(shared: &'static Shared, door: &'static Door, events: &SyncSender<Event>) -> io::Result<()> {
    let (writes, orders) = mpsc::channel();
    let orders: &Mutex<_> = Box::leak(Box::new(Mutex::new(orders)));
    for _ in 0..shared.configuration.source.write_connections {
        run("writer", move || writes::run(shared, orders))?;
    }
    for counts in &shared.counts {
        let reader = shared.cache.reader().ok_or_else(|| io::Error::other("the cache has no reader for it"))?;
        let service = Service { shared, counts, reader, events: events.clone(), writes: writes.clone() };
        let (event_loop, limits) = (EventLoop::new()?, shared.configuration.listen.limits());
        door.leads_to(event_loop.mailbox());
        run("worker", move || event_loop.run(door, service, limits, BOUNDS))?;
    }
    Ok(())
}

fn run(name: &str, work: impl FnOnce() + Send + 'static) -> io::Result<()> {
    Builder::new().name(name.into()).spawn(work).map(drop)
}

fn tell_systemd(state: &str) {
    _ = ending::notify(state).inspect_err(|fault| eprintln!("edge: systemd isn't told: {fault}"));
}

/// What the edge needs may go without a word of the stream, as the event trigger that has it tell of others: so it is
/// looked for now and then.
fn watch(shared: &Shared, events: SyncSender<Event>) {
    loop {
        thread::sleep(shared.configuration.source.recheck());
        let Ok(mut beside) = shared.base.as_it_is() else { continue };
        if let Err(End::Refused(why)) = slot::checked(&shared.configuration, &mut beside) {
            _ = events.send(Event::Refused(why));
            return;
        }
    }
}

/// Clients have their last replies, and the slot goes. The status with which to end.
fn end(shared: &'static Shared, door: &Door, status: i32) -> i32 {
    shared.is_over.store(true, SeqCst);
    door.shut(GRACE);
    if let Some(path) = &shared.configuration.listen.unix_socket {
        _ = fs::remove_file(path);
    }
    let (done, is_done) = mpsc::channel();
    // Where there is no thread for it, there is none that answers.
    _ = run("end", move || _ = done.send(leave(shared)));
    let left = is_done.recv_timeout(GRACE).map_err(|_| "it doesn't answer".to_string());
    if let Err(why) = left.and_then(|left| left.map_err(|fault| fault.to_string())) {
        let goes = |_| String::from("goes when PostgreSQL sees that the edge is gone");
        let stays = |lasting: Lasting| format!("{} stays, and is an operator's to drop", lasting.name);
        eprintln!("edge: the slot {}: {why}", shared.lasting().map_or_else(|| goes(()), stays));
    }
    status
}

/// Ends PostgreSQL's process that brings the changes, and with it a temporary slot. A lasting one is dropped.
fn leave(shared: &Shared) -> Result<(), Fault> {
    let process = shared.stream.swap(0, SeqCst);
    if process != 0 {
        let mut connection = shared.base.as_it_is()?;
        let names = format!("edge_{}_%", process::id());
        connection.run_with("SELECT pg_terminate_backend($1::integer)", &[&process.to_string()])?;
        let is_there = "SELECT 1 FROM pg_replication_slots WHERE slot_name LIKE $1 AND active_pid = $2::integer";
        while !connection.run_with(is_there, &[&names, &process.to_string()])?.is_empty() {
            thread::sleep(Duration::from_millis(10));
        }
    }
    slot::drop_lasting(shared)
}
