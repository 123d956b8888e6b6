//! Helpers: the threads that wait for the base. Some load, and others vote, so that neither wait for each other.
use crate::session::{text_of, told, write, Reply};
use crate::{log, Shared};
use base::{Base, Query};
use edge_common::later::Giver;
use nr::{Request, Row};
use std::sync::{mpsc::Receiver, Mutex, PoisonError};
use std::thread::{Builder, JoinHandle};

/// An article that the view lacks, and who waits for it; nobody does yet who will ask for it next.
pub struct Load {
    pub request: Request<String, Box<[Row]>>,
    pub client: Option<Giver<Reply>>,
}

pub struct Vote {
    pub article: String,
    pub row: Row,
    pub is_new: bool,
    pub client: Giver<Reply>,
}

/// Starts so many threads, or fewer where one can't be made.
pub fn start<R: FnOnce() + Send + 'static>(
    name: &str,
    count: usize,
    make: impl Fn(usize) -> Result<R, String>,
) -> Vec<JoinHandle<()>> {
    let mut started = Vec::new();
    for number in 0..count {
        let spawn = |run: R| Builder::new().name(name.into()).spawn(run).map_err(|why| why.to_string());
        match make(number).and_then(spawn) {
            Ok(thread) => started.push(thread),
            Err(why) => {
                log::say("thread", &format!("only {number} of {count} are made: {why}"));
                break;
            }
        }
    }
    started
}

fn next<T>(from: &Mutex<Receiver<T>>) -> Option<T> {
    from.lock().unwrap_or_else(PoisonError::into_inner).recv().ok()
}

/// Loads one article after another, until nobody asks any more.
pub fn load(loads: &Mutex<Receiver<Load>>, mut base: Base) {
    while let Some(Load { request, client }) = next(loads) {
        let rows = base.run(Query::Rows, request.key(), &[]).map_err(told);
        let reply = rows.as_ref().map(|rows| text_of(rows)).map_err(String::clone);
        match rows {
            Ok(rows) => _ = request.fill(rows.into()),
            Err(why) => request.fail(why),
        }
        client.into_iter().for_each(|client| client.give(reply.clone()));
    }
}

/// Writes one vote after another, until nobody votes any more.
pub fn vote(votes: &Mutex<Receiver<Vote>>, writes: &Mutex<Base>, shared: &Shared) {
    while let Some(Vote { article, row, is_new, client }) = next(votes) {
        client.give(write(shared, writes, &article, row, is_new));
    }
}
