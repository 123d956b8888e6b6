//! Upqueries: threads that each ask PostgreSQL, by a connection of their own, for the rows of many keys at once.
use crate::content::Content;
use crate::dataflow::Event;
use crate::key::{self, Key};
use crate::lsn::Lsn;
use crate::needs::array;
use crate::pq::{Cells, Connection, Fault};
use crate::shared::Shared;
use crate::snapshot::{Seen, TableId};
use crate::tables::{self, Table};
use std::collections::VecDeque;
use std::sync::{mpsc::SyncSender, Arc, Condvar, Mutex, PoisonError};
use std::{thread, time::Duration};

/// A key whose rows are asked for.
#[derive(Clone)]
pub struct Request {
    /// Later ones have higher numbers.
    pub number: u64,
    pub asked: Asked,
    /// An answer came that saw too little, so that this one waits a little before it asks again.
    pub is_again: bool,
}

#[derive(Clone)]
pub enum Asked {
    Key {
        key: Key,
        view: usize,
    },
    /// Only what a snapshot sees.
    Snapshot,
}

impl Asked {
    fn view(&self) -> Option<usize> {
        match self {
            Asked::Key { view, .. } => Some(*view),
            Asked::Snapshot => None,
        }
    }
}

/// What a key has, or why it has none to tell.
pub type Told = Result<Content, String>;

/// What PostgreSQL answers to the requests of one statement: of each key what it has.
pub struct Answer {
    pub requests: Vec<Request>,
    pub told: Result<(Seen, Vec<Told>), Fault>,
}

/// The requests that wait for a connection.
#[derive(Default)]
pub struct Queue {
    requests: Mutex<VecDeque<Request>>,
    has_more: Condvar,
}

/// The most keys of a statement.
const BATCH: usize = 64;
const PAUSE: Duration = Duration::from_millis(5);
const ONLY_SEEN: &str = "SELECT 1, pg_current_snapshot(), pg_current_wal_insert_lsn(),
    pg_size_bytes(current_setting('wal_segment_size')), 0";

impl Queue {
    pub fn push(&self, request: Request) {
        self.requests.lock().unwrap_or_else(PoisonError::into_inner).push_back(request);
        self.has_more.notify_one();
    }

    #[cfg(test)]
    pub fn waiting(&self) -> Vec<Request> {
        self.requests.lock().unwrap_or_else(PoisonError::into_inner).drain(..).collect()
    }

    /// The first, which is waited for, and those of its view.
    fn next(&self) -> Vec<Request> {
        let requests = self.requests.lock().unwrap_or_else(PoisonError::into_inner);
        let is_empty = |requests: &mut VecDeque<Request>| requests.is_empty();
        let mut requests = self.has_more.wait_while(requests, is_empty).unwrap_or_else(PoisonError::into_inner);
        let view = requests.front().and_then(|first| first.asked.view());
        let (mut taken, mut left) = (Vec::new(), VecDeque::new());
        while let Some(request) = requests.pop_front() {
            let is_taken = request.asked.view() == view && taken.len() < BATCH;
            if is_taken {
                taken.push(request)
            } else {
                left.push_back(request)
            }
        }
        *requests = left;
        taken
    }
}

/// A connection whose statements are of these tables.
struct Prepared {
    tables: Arc<[Table]>,
    connection: Connection,
}

pub fn run(shared: &Shared, queue: &Queue, events: SyncSender<Event>) {
    let mut at = None;
    loop {
        let requests = queue.next();
        if requests.iter().any(|request| request.is_again) {
            thread::sleep(PAUSE);
        }
        let answers = answers(shared, &mut at, requests);
        if answers.into_iter().any(|answer| events.send(Event::Answer(answer)).is_err()) {
            return;
        }
    }
}

/// One answer. Where a key is no text of its type, that is no matter of the others: each is asked alone.
fn answers(shared: &Shared, at: &mut Option<Prepared>, requests: Vec<Request>) -> Vec<Answer> {
    // A connection may have broken since its last use, so another is tried.
    let told = match told(shared, at, &requests) {
        Err(fault) if fault.is_of_connection() => self::told(shared, at, &requests),
        told => told,
    };
    let is_of_a_value = |fault: &Fault| OF_A_VALUE.iter().any(|class| fault.state.starts_with(class));
    match told {
        Err(fault) if is_of_a_value(&fault) && requests.len() > 1 => {
            requests.into_iter().flat_map(|request| answers(shared, at, vec![request])).collect()
        }
        told => vec![Answer { requests, told }],
    }
}

/// A text that is none of its type, or not of its domain.
const OF_A_VALUE: [&str; 2] = ["22", "23"];

fn told(shared: &Shared, at: &mut Option<Prepared>, requests: &[Request]) -> Result<(Seen, Vec<Told>), Fault> {
    let tables = shared.tables();
    let mut prepared = match at.take() {
        Some(prepared) if Arc::ptr_eq(&prepared.tables, &tables) => prepared,
        _ => prepared(shared, tables)?,
    };
    let answer = match requests.first().and_then(|request| request.asked.view()) {
        Some(view) => told_of(shared, &mut prepared, view, requests),
        None => prepared.connection.run(ONLY_SEEN).and_then(|tables| {
            let line: Vec<_> = tables.concat().pop().unwrap_or_default().into_iter().map(Some).collect();
            understood(seen(&line).map(|seen| (seen, Vec::new())))
        }),
    };
    // After a refusal of a key the connection is as good as before.
    if !answer.as_ref().is_err_and(Fault::is_of_connection) {
        *at = Some(prepared);
    }
    answer
}

fn told_of(shared: &Shared, at: &mut Prepared, view: usize, requests: &[Request]) -> Result<(Seen, Vec<Told>), Fault> {
    let parts: Vec<Vec<String>> = requests.iter().map(|request| parts(shared, request)).collect();
    let column = |place: usize| array(&parts.iter().map(|parts| parts[place].clone()).collect::<Vec<_>>());
    let columns: Vec<String> = (0..shared.configuration.views[view].key.len()).map(column).collect();
    let columns: Vec<&str> = columns.iter().map(String::as_str).collect();
    let cells = at.connection.run_prepared(&tables::statement_of(view), &columns)?;
    understood(contents(&cells, &parts, &at.tables[view]))
}

fn prepared(shared: &Shared, tables: Arc<[Table]>) -> Result<Prepared, Fault> {
    let mut connection = shared.base.with_one_text()?;
    for table in tables.iter() {
        connection.run(&table.prepare)?;
    }
    Ok(Prepared { tables, connection })
}

/// The texts of a key's columns; the dataflow has looked whether there are as many as there should be.
fn parts(shared: &Shared, request: &Request) -> Vec<String> {
    let Asked::Key { key, view } = &request.asked else { return Vec::new() };
    let rest = key::view_of(key).map_or("", |(_, rest)| rest);
    let count = shared.configuration.views[*view].key.len();
    key::parts_of(rest, count).unwrap_or_else(|_| vec![String::new(); count])
}

fn understood<T>(told: Option<T>) -> Result<T, Fault> {
    told.ok_or_else(|| String::from("PostgreSQL answered what can't be understood").into())
}

fn seen(line: &[Option<String>]) -> Option<Seen> {
    let cell = |place: usize| line.get(place)?.as_deref();
    let place = Lsn::before_header(cell(2)?, cell(3)?).ok()?;
    Some(Seen { snapshot: cell(1)?.parse().ok()?, place, table: TableId(cell(4)?.parse().ok()?) })
}

/// Each line of the answer is a row of a key or its group, or says that the key has none.
fn contents(cells: &Cells, parts: &[Vec<String>], table: &Table) -> Option<(Seen, Vec<Told>)> {
    let seen = seen(cells.first()?)?;
    let mut lines: Vec<Result<Vec<&[Option<String>]>, String>> = parts.iter().map(|_| Ok(Vec::new())).collect();
    for line in cells {
        let place = line.first()?.as_deref()?.parse::<usize>().ok()?.checked_sub(1)?;
        let (asked, of_key) = (parts.get(place)?, lines.get_mut(place)?);
        let (key, cells) = line.get(6..)?.split_at_checked(asked.len())?;
        if !asked.iter().zip(key).all(|(asked, key)| Some(asked) == key.as_ref()) {
            let key: Vec<_> = key.iter().map(|it| it.as_deref().unwrap_or_default()).collect();
            *of_key = Err(format!("PostgreSQL writes this key {}", key.join(":")));
        } else if let (Some("t"), Ok(lines)) = (line.get(5)?.as_deref(), of_key) {
            lines.push(cells);
        }
    }
    let content = |(key, lines): (&Vec<String>, Result<Vec<_>, String>)| match lines {
        Ok(lines) => Content::of(table, key, &lines).map(Ok),
        Err(why) => Some(Err(why)),
    };
    let told = parts.iter().zip(lines).map(content).collect::<Option<_>>()?;
    Some((seen, told))
}
