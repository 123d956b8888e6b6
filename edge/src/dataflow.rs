//! The dataflow: the one thread that fills and changes what sessions find. It puts the answers of upqueries and the
//! stream's transactions into an order in which each change of a key counts once, and never waits for PostgreSQL.
use crate::changes::Changes;
use crate::content::{Content, Lack};
use crate::fresh::Fresh;
use crate::key::Key;
use crate::log::{self, Log};
use crate::lsn::Lsn;
use crate::pq::Fault;
use crate::residents::Residents;
use crate::shared::Shared;
use crate::snapshot::{Seen, Snapshot, TableId};
use crate::upquery::{self, Answer, Asked, Queue, Request};
use crate::{parts, stats::Count, value::Value};
use edge_common::later::Giver;
use std::collections::HashMap;
use std::sync::atomic::Ordering::{Relaxed, SeqCst};
use std::sync::{mpsc, Arc};

pub type Transaction = log::Transaction<Changes>;

pub enum Event {
    /// A client waits for a key of a view.
    Asked {
        key: Key,
        view: usize,
        client: Giver<Told>,
    },
    Answer(Answer),
    Transaction(Transaction),
    /// The stream has brought all that was committed before this place.
    Reached(Lsn),
    /// The stream is broken. What is held was right when it broke.
    Broken,
    /// Changes were missed, and what is held may be wrong.
    Lost,
    /// A new slot stands.
    Begun(First),
    /// The slot of before goes on, and brings all since.
    Resumed,
    /// The stream can't go on, for this reason, until an operator mends it.
    Refused(String),
}

/// What a slot begins with.
pub struct First {
    /// It sees just what was committed before the slot's first transaction, which comes after the place.
    pub snapshot: Snapshot,
    pub place: Lsn,
    /// Of each view the table whose changes it brings.
    pub tables: Vec<TableId>,
}

/// What who waits for rows is told.
#[derive(Clone)]
pub enum Told {
    Value(Arc<Value>),
    /// The request was taken back, and may be made again.
    Again,
    Fault(Arc<str>),
}

/// Who waits for the answer of a key's last request.
struct Waiting {
    number: u64,
    clients: Vec<Giver<Told>>,
}

/// After this many applied transactions without an upquery, PostgreSQL is asked what a snapshot sees.
const LONG_LOG: usize = 1024;

pub struct Dataflow<'a> {
    shared: &'a Shared,
    queue: &'a Queue,
    residents: Residents<'a>,
    waiting: HashMap<Key, Waiting>,
    log: Log<Changes>,
    fresh: Fresh<Key>,
    /// What the slot began with, while it stands.
    first: Option<First>,
    /// The same while the slot may go on.
    paused: Option<First>,
    applied: Lsn,
    /// The requests up to this one were taken back.
    emptied_after: u64,
}

impl<'a> Dataflow<'a> {
    pub fn new(shared: &'a Shared, queue: &'a Queue) -> Dataflow<'a> {
        Dataflow {
            shared,
            queue,
            residents: Residents::new(shared),
            waiting: HashMap::new(),
            log: Log::default(),
            fresh: Fresh::default(),
            first: None,
            paused: None,
            applied: Lsn(0),
            emptied_after: 0,
        }
    }

    /// Until the edge can't go on, for the reason that is given.
    pub fn run(mut self, events: mpsc::Receiver<Event>) -> Result<(), String> {
        for event in events {
            match event {
                Event::Refused(why) => return Err(why),
                event => self.handle(event),
            }
            self.shared.now.log.store(self.log.count() as u64, Relaxed);
            self.shared.now.waiting.store(self.waiting.len() as u64, Relaxed);
        }
        Ok(())
    }

    fn handle(&mut self, event: Event) {
        match event {
            Event::Asked { key, view, client } => self.ask(key, view, client),
            Event::Answer(answer) => self.take_answer(answer),
            Event::Transaction(transaction) => self.apply(transaction),
            Event::Reached(place) => self.reach(place),
            Event::Broken => self.pause(),
            Event::Lost => self.begin_anew(),
            Event::Begun(first) => self.follow(first),
            Event::Resumed => self.go_on(),
            Event::Refused(_) => {}
        }
    }

    fn ask(&mut self, key: Key, view: usize, client: Giver<Told>) {
        if let Some(waiting) = self.waiting.get_mut(&key) {
            self.shared.work.up(Count::Waits);
            return waiting.clients.push(client);
        }
        if let Some(value) = self.residents.value(&key).filter(|_| !self.shared.is_stale()) {
            return client.give(Told::Value(value));
        }
        self.shared.work.up(Count::Upqueries);
        let number = self.log.send();
        self.waiting.insert(Arc::clone(&key), Waiting { number, clients: vec![client] });
        self.queue.push(Request { number, asked: Asked::Key { key, view }, is_again: false });
    }

    /// Where a key's request is no longer its last one, nothing is asked.
    fn request_again(&mut self, request: Request) {
        let Some(waiting) = self.current(&request) else { return };
        let clients = std::mem::take(&mut waiting.clients);
        self.shared.work.up(Count::Again);
        let number = self.log.send();
        if let Asked::Key { key, .. } = &request.asked {
            self.waiting.insert(Arc::clone(key), Waiting { number, clients });
        }
        self.queue.push(Request { number, is_again: true, ..request });
    }

    fn current(&mut self, request: &Request) -> Option<&mut Waiting> {
        let Asked::Key { key, .. } = &request.asked else { return None };
        self.waiting.get_mut(key).filter(|waiting| waiting.number == request.number)
    }

    /// Changes each key but where its rows have the transaction already.
    fn apply(&mut self, transaction: Transaction) {
        self.shared.hears();
        if transaction.end <= self.applied && parts::REPEATS_GUARD {
            return self.shared.work.up(Count::Repeats);
        }
        self.shared.work.up(Count::Transactions);
        // Before a client can find what changes.
        self.shared.told.fetch_max(transaction.end.0, SeqCst);
        for key in self.residents.changed_by(&transaction.changes) {
            if self.fresh.has(&key, transaction.xid) {
                self.shared.work.up(Count::Skips);
            } else {
                self.residents.update(&key, &transaction.changes);
            }
        }
        let end = transaction.end;
        if !transaction.changes.is_empty() {
            self.log.push(transaction);
        }
        if self.log.count() >= LONG_LOG && !self.log.is_awaited() {
            let number = self.log.send();
            self.queue.push(Request { number, asked: Asked::Snapshot, is_again: false });
        }
        self.reach(end);
    }

    fn reach(&mut self, place: Lsn) {
        self.shared.hears();
        if place > self.applied {
            self.applied = place;
            self.fresh.passed(place);
            self.shared.progress.reach(place.0);
        }
    }

    /// Nothing is filled until a slot stands. What is held stays until then, and is what it was when the stream broke.
    fn pause(&mut self) {
        self.paused = self.first.take().or(self.paused.take());
        self.shared.follows(false);
    }

    fn go_on(&mut self) {
        self.first = self.paused.take();
        self.shared.hears();
        self.shared.follows(self.first.is_some());
    }

    /// Nothing that is held may be told any more, and no answer that is under way may fill. The log stays until the new
    /// slot stands: PostgreSQL may not show yet what clients were told.
    fn begin_anew(&mut self) {
        self.pause();
        self.paused = None;
        self.shared.progress.restart(0);
        self.fresh = Fresh::default();
        self.residents.empty();
        if parts::CANCEL {
            self.emptied_after = self.log.last_sent();
            let taken_back = self.waiting.drain().flat_map(|(_, waiting)| waiting.clients);
            taken_back.for_each(|client| client.give(Told::Again));
        }
    }

    fn follow(&mut self, first: First) {
        if self.applied > Lsn(0) {
            self.shared.work.up(Count::Losses);
        }
        self.begin_anew();
        self.log.clear();
        self.applied = first.place;
        self.shared.progress.restart(first.place.0);
        self.first = Some(first);
        self.shared.hears();
        self.shared.follows(true);
    }

    fn take_answer(&mut self, Answer { requests, told }: Answer) {
        self.shared.work.up(Count::Statements);
        self.log.answered(requests.iter().map(|request| request.number));
        // An answer of before a new begin tells nothing: another server may give the numbers of transactions anew.
        if requests.iter().all(|request| request.number <= self.emptied_after) {
            return;
        }
        let (seen, told) = match told {
            Ok(answer) => answer,
            Err(fault) => return self.refuse_all(&requests, &fault),
        };
        if parts::TABLE && self.has_other_table(&requests, seen.table) {
            self.begin_anew();
            self.log.clear();
            return self.shared.has_other_table.store(true, SeqCst);
        }
        if self.lacks_first(&seen) {
            return requests.into_iter().for_each(|request| self.request_again(request));
        }
        self.shared.told.fetch_max(seen.place.0, SeqCst);
        let unseen: Vec<&Changes> = self.log.unseen_by(&seen.snapshot).collect();
        let brought: Vec<_> =
            requests.iter().zip(told).map(|(request, told)| replayed(request, told, &unseen)).collect();
        self.log.prune(&seen.snapshot);
        let seen = Arc::new(seen);
        requests.iter().zip(brought).for_each(|(request, brought)| self.bring(request, brought, &seen));
    }

    /// Another table has the name now. What is held and the log are of the one before, which the stream still brings.
    fn has_other_table(&self, requests: &[Request], table: TableId) -> bool {
        let Some(Asked::Key { view, .. }) = requests.first().map(|request| &request.asked) else { return false };
        self.first.as_ref().is_some_and(|first| first.tables.get(*view) != Some(&table))
    }

    /// Whether the snapshot may lack what the slot doesn't bring. One of before the slot may be told after one that
    /// covers that.
    fn lacks_first(&self, seen: &Seen) -> bool {
        let lacks = |first: &First| !seen.snapshot.covers(&first.snapshot);
        parts::FIRST_SNAPSHOT && self.first.as_ref().is_some_and(lacks)
    }

    /// What a key has.
    fn bring(&mut self, request: &Request, Brought { told, is_replayed }: Brought, seen: &Arc<Seen>) {
        let Asked::Key { key, view } = &request.asked else { return };
        if self.current(request).is_none() {
            return;
        }
        if is_replayed {
            self.shared.work.up(Count::Replays);
        }
        let told = match told {
            Err(why) => Told::Fault(why.into()),
            // PostgreSQL shows it soon.
            Ok(Err(Lack::Untold)) => return self.request_again(request.clone()),
            Ok(Err(Lack::Disagreement)) => {
                self.shared.work.up(Count::Disagreements);
                Told::Fault("the rows and the changes disagree".into())
            }
            Ok(Ok(content)) if self.first.is_some() => {
                let value = self.residents.fill(*view, key, content);
                if seen.place > self.applied {
                    self.fresh.filled(key, seen);
                }
                Told::Value(value)
            }
            Ok(Ok(content)) => Told::Value(Arc::new(Value::of(&content, self.shared.encoding(*view)))),
        };
        self.tell(request, &told);
    }

    /// The rows can't be had now, so the next who asks has PostgreSQL asked again.
    fn refuse_all(&mut self, requests: &[Request], fault: &Fault) {
        let told = Told::Fault(fault.without_severity().into());
        requests.iter().for_each(|request| self.tell(request, &told));
    }

    fn tell(&mut self, request: &Request, told: &Told) {
        let clients = self.current(request).map(|waiting| std::mem::take(&mut waiting.clients));
        let Some(clients) = clients else { return };
        if let Asked::Key { key, .. } = &request.asked {
            self.waiting.remove(key);
        }
        clients.into_iter().for_each(|client| client.give(told.clone()));
    }
}

/// What a statement saw of a key, with the changes that it didn't see, or why that isn't known.
struct Brought {
    told: Result<Result<Content, Lack>, String>,
    is_replayed: bool,
}

fn replayed(request: &Request, told: upquery::Told, unseen: &[&Changes]) -> Brought {
    let mut brought = Brought { told: told.map(Ok), is_replayed: false };
    let Asked::Key { key, .. } = &request.asked else { return brought };
    for changes in unseen {
        let Ok(Ok(content)) = &brought.told else { break };
        if content.is_of(key, changes) {
            brought = Brought { told: Ok(content.changed(key, changes)), is_replayed: true };
        }
    }
    brought
}

#[cfg(test)]
#[path = "../tries/rule.rs"]
mod tests;
