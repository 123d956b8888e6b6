//! What a worker answers clients with: a GET of what is held at once, and else once the session is woken.
use crate::helpers::{Load, Vote};
use crate::stats::{self, Count, Counts};
use crate::{log, Shared, BOUNDS};
use base::{Base, Query};
use edge_common::command::{command, Command};
use edge_common::guest::{Answered, Fault, Guest, Host, WRONG_COUNT};
use edge_common::later::later;
use edge_common::resp::bulk;
use edge_common::session::{self, Next, Turn};
use nr::{CacheReader, Delta, Row, Sought, Wait, WaitError};
use std::future::Future;
use std::sync::mpsc::{Receiver, Sender, TryRecvError};
use std::sync::Mutex;
use std::task::{Context, Poll};
use std::{fmt::Write, pin::Pin, time::Instant};

pub struct Service {
    pub reader: CacheReader<String, Box<[Row]>>,
    pub counts: &'static Counts,
    pub shared: &'static Shared,
    pub loads: Sender<Load>,
    pub votes: Sender<Vote>,
}

pub struct Client {
    guest: Guest,
    waits: Option<Waits>,
}

/// What a client's command waits for, and since when.
struct Waits {
    what: What,
    begun: Instant,
}

enum What {
    Load(Receiver<Reply>),
    /// Another's load of an article.
    Other(String, Wait<String, Box<[Row]>>),
    Vote(Receiver<Reply>),
}

const KNOWN: [&str; 8] = ["GET", "VOTE", "UNVOTE", "STATS", "PING", "SELECT", "HELLO", "CONFIG"];
/// Of a client's commands in one breath, so many are looked at for what they will miss.
const AHEAD: usize = 64;
/// What a command comes to, but for the code of an error.
pub type Reply = Result<String, String>;

impl session::Service for Service {
    type Client = Client;

    fn begin(&mut self, number: usize) -> Client {
        Client { guest: Guest::new(number, &self.shared.host), waits: None }
    }

    fn answer(&mut self, client: &mut Client, command: Command, mut turn: Turn) -> Next {
        let begin = turn.to.len();
        let next = command.map_err(|why| format!("ERR {why}")).and_then(|words| self.next(client, &words, &mut turn));
        next.unwrap_or_else(|fault| self.refuse(client, begin, turn, &fault))
    }

    fn go_on(&mut self, client: &mut Client, mut turn: Turn) -> Next {
        let Some(Waits { what, begun }) = client.waits.take() else { return Next::Command };
        let begin = turn.to.len();
        let next = match what {
            What::Load(reply) => self.wait_for(client, What::Load, Count::Misses, (reply, begun), &mut turn),
            What::Vote(reply) => self.wait_for(client, What::Vote, Count::Votes, (reply, begun), &mut turn),
            What::Other(article, wait) => self.wait_for_other(client, (article, begun), wait, &mut turn),
        };
        next.unwrap_or_else(|fault| self.refuse(client, begin, turn, &fault))
    }

    fn sends_away(&mut self) {
        self.counts.up(Count::TimedOut);
    }
}

impl Service {
    /// Of a reply that was begun nothing stays.
    fn refuse(&self, client: &Client, begin: usize, turn: Turn, fault: &str) -> Next {
        self.counts.up(Count::Errors);
        turn.to.truncate(begin);
        client.guest.reply(turn.to).error(fault);
        Next::Command
    }

    fn next(&mut self, client: &mut Client, words: &[&str], turn: &mut Turn) -> Result<Next, Fault> {
        let Some((command, arguments)) = words.split_first() else { return Ok(Next::Command) };
        let command = command.to_ascii_uppercase();
        match (&*command, arguments) {
            ("GET", [article]) => self.get(client, article, turn),
            ("VOTE", [article, user, weight]) => self.vote(client, article, (user, weight), true, turn),
            ("UNVOTE", [article, user, weight]) => self.vote(client, article, (user, weight), false, turn),
            ("STATS", []) | ("INFO", _) => put(Ok(bulk(&stats::text(self.shared))), turn),
            _ => answer_of_server(&mut client.guest, &self.shared.host, (&command, arguments), turn.to),
        }
    }

    /// By the view, without a lock; or else by one load, however many miss the article together.
    fn get(&mut self, client: &mut Client, article: &str, turn: &mut Turn) -> Result<Next, Fault> {
        name(article).map_err(|why| format!("ERR {why}"))?;
        let begun = Instant::now();
        let Some(text) = self.reader.get(article).map(|rows| text_of(&rows)) else {
            self.look_ahead(turn.rest);
            return self.seek(client, (article.into(), begun), turn);
        };
        self.counts.took(Count::Hits, begun.elapsed());
        put(Ok(text), turn)
    }

    fn seek(
        &mut self,
        client: &mut Client,
        (article, begun): (String, Instant),
        turn: &mut Turn,
    ) -> Result<Next, Fault> {
        let wait = match self.reader.get_or_request(&*article) {
            Sought::Held(rows) | Sought::Aged(rows, _) => {
                self.counts.took(Count::Misses, begun.elapsed());
                return put(Ok(text_of(&rows)), turn);
            }
            Sought::Missing(request) => {
                let (giver, reply) = later(turn.waker);
                // Where all loaders have gone, nothing comes.
                _ = self.loads.send(Load { request, client: Some(giver) });
                client.waits = Some(Waits { what: What::Load(reply), begun });
                return Ok(Next::Wait(None));
            }
            Sought::UnderWay(wait) => wait,
        };
        self.wait_for_other(client, (article, begun), wait, turn)
    }

    /// For a while.
    fn wait_for_other(
        &mut self,
        client: &mut Client,
        (article, begun): (String, Instant),
        mut wait: Wait<String, Box<[Row]>>,
        turn: &mut Turn,
    ) -> Result<Next, Fault> {
        let until = begun + self.shared.busy;
        let reply = match Pin::new(&mut wait).poll(&mut Context::from_waker(turn.waker)) {
            Poll::Pending if Instant::now() < until => {
                client.waits = Some(Waits { what: What::Other(article, wait), begun });
                return Ok(Next::Wait(Some(until)));
            }
            Poll::Pending => Err(told(WaitError::TimedOut.to_string())),
            Poll::Ready(Ok(rows)) => Ok(text_of(&rows)),
            Poll::Ready(Err(WaitError::Missing)) => return self.seek(client, (article, begun), turn),
            Poll::Ready(Err(why)) => Err(told(why.to_string())),
        };
        self.counts.took(Count::Misses, begun.elapsed());
        put(reply, turn)
    }

    fn wait_for(
        &self,
        client: &mut Client,
        what: fn(Receiver<Reply>) -> What,
        count: Count,
        (reply, begun): (Receiver<Reply>, Instant),
        turn: &mut Turn,
    ) -> Result<Next, Fault> {
        let told = match reply.try_recv() {
            Err(TryRecvError::Empty) => {
                client.waits = Some(Waits { what: what(reply), begun });
                return Ok(Next::Wait(None));
            }
            Err(TryRecvError::Disconnected) => Err("the server has ended".into()),
            Ok(told) => told,
        };
        self.counts.took(count, begun.elapsed());
        put(told, turn)
    }

    /// Has what a client's next GETs lack loaded side by side.
    fn look_ahead(&mut self, mut rest: &[u8]) {
        for _ in 0..AHEAD {
            let Ok(Some((words, size))) = command(rest, &BOUNDS) else { return };
            rest = &rest[size..];
            match words.as_deref() {
                Ok([get, article]) if get.eq_ignore_ascii_case("GET") && name(article).is_ok() => {
                    if let Sought::Missing(request) = self.reader.get_or_request(*article) {
                        _ = self.loads.send(Load { request, client: None });
                    }
                }
                _ => {}
            }
        }
    }

    fn vote(
        &mut self,
        client: &mut Client,
        article: &str,
        (user, weight): (&str, &str),
        is_new: bool,
        turn: &mut Turn,
    ) -> Result<Next, Fault> {
        let row = name(article).and_then(|()| Ok(Row { a: number(user)?, b: number(weight)? }));
        let row = row.map_err(|why| format!("ERR {why}"))?;
        let (giver, reply) = later(turn.waker);
        // Where all who vote have gone, nothing comes.
        _ = self.votes.send(Vote { article: article.into(), row, is_new, client: giver });
        client.waits = Some(Waits { what: What::Vote(reply), begun: Instant::now() });
        Ok(Next::Wait(None))
    }
}

fn put(reply: Reply, turn: &mut Turn) -> Result<Next, Fault> {
    turn.to.extend(reply.map_err(|why| format!("ERR {why}"))?.bytes());
    Ok(Next::Command)
}

/// What each server answers, and that there is no such command.
fn answer_of_server(
    guest: &mut Guest,
    host: &Host,
    (command, arguments): (&str, &[&str]),
    to: &mut Vec<u8>,
) -> Result<Next, Fault> {
    match (guest.answer(host, (command, arguments), to)?, command, arguments) {
        (Answered::No, "CONFIG", [get, name]) if get.eq_ignore_ascii_case("GET") => {
            let mut reply = guest.reply(to);
            reply.map(1);
            [name, ""].iter().for_each(|text| reply.bulk(text));
            Ok(Next::Command)
        }
        (Answered::No, command, _) if KNOWN.contains(&command) => Err(WRONG_COUNT.into()),
        (Answered::No, ..) => Err(format!("ERR unknown command: there are {}", KNOWN.join(", "))),
        (Answered::Here, ..) => Ok(Next::Command),
        (Answered::ForTheLastTime, ..) => Ok(Next::End),
    }
}

/// Writes a vote to the base, and then to the view, which holds no load that began before the end of both.
pub fn write(shared: &Shared, writes: &Mutex<Base>, article: &str, row: Row, is_new: bool) -> Reply {
    let (query, delta) = if is_new { (Query::Add, Delta::plus(row)) } else { (Query::Remove, Delta::minus(row)) };
    // After a fault nobody knows what was written: the article leaves the view with this.
    let change = shared.view.change(article);
    let rows = writes.lock().unwrap().run(query, article, &[row.a, row.b]).map_err(told)?;
    let deltas = if rows.is_empty() { &[][..] } else { &[delta] };
    if change.commit(deltas).is_err() {
        log::say("view", &format!("another program has written votes of {article}"));
    }
    rows.first().map(|_| "+OK\r\n".into()).ok_or("there is no such vote".into())
}

/// A fault of the base, of which the log has a line.
pub fn told(why: String) -> String {
    log::say("base", &why);
    why
}

fn name(word: &str) -> Result<(), String> {
    let is_name = (1..=64).contains(&word.len()) && !word.contains(char::is_control);
    is_name.then_some(()).ok_or("an article is 1 to 64 bytes without control characters".into())
}

fn number(word: &str) -> Result<u64, String> {
    let number = word.parse().ok().filter(|number| *number <= i64::MAX as u64);
    number.ok_or("a user and a weight are numbers from 0 to 9223372036854775807".into())
}

pub fn text_of(rows: &[Row]) -> String {
    let mut text = String::new();
    rows.iter().for_each(|Row { a: user, b: weight }| _ = write!(text, "{user}:{weight} "));
    bulk(text.trim_end())
}
