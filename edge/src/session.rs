//! What a worker answers its clients with: from what is held at once, and else once the session is woken.
use crate::dataflow::{Event, Told};
use crate::guest::{Answered, Fault, Guest, WRONG_COUNT};
use crate::key::{self, Key};
use crate::lsn::Lsn;
use crate::resp::Reply;
use crate::shared::Shared;
use crate::stats::{self, Count, Counts};
use crate::value::Value;
use crate::writes::{self, Order};
use edge_common::command::{Bounds, Command};
use edge_common::later::later;
use edge_common::progress::Awaited;
use edge_common::session::{self, Next, Turn};
use nr::CacheReader;
use std::collections::VecDeque;
use std::sync::mpsc::{self, Receiver, SyncSender, TryRecvError::Disconnected, TryRecvError::Empty};
use std::sync::{atomic::Ordering::SeqCst, Arc};
use std::{task::Waker, time::Instant};

pub struct Service {
    pub shared: &'static Shared,
    pub counts: &'static Counts,
    pub reader: CacheReader<Key, Arc<Value>>,
    pub events: SyncSender<Event>,
    pub writes: mpsc::Sender<Arc<Order>>,
}

pub struct Client {
    guest: Guest,
    waits: Option<Waits>,
}

/// What a client's command waits for.
enum Waits {
    /// That the edge comes as far as a token, with which one key is read.
    Token {
        awaited: Awaited<'static>,
        until: Instant,
        read: Read,
        key: Key,
    },
    Values(Values),
    Write {
        order: Arc<Order>,
        told: Receiver<Result<Lsn, Fault>>,
        until: Instant,
    },
}

#[derive(Clone, Copy)]
enum Read {
    Get,
    /// The rows, and a token with which no other edge answers with older ones.
    WithToken,
    Many,
    Exist,
}

/// Those that a command reads, in its order.
struct Values {
    read: Read,
    known: Vec<Arc<Value>>,
    left: VecDeque<Sought>,
    until: Instant,
}

enum Sought {
    Held(Arc<Value>),
    Asked(Key, Receiver<Told>),
}

/// As many keys as one MGET has, each as long as a word may be.
pub const BOUNDS: Bounds = Bounds { words: 1024, bytes: 1024 * (4096 + 16) };
/// Those that no write may be called.
pub const COMMANDS: [&str; 12] =
    ["GET", "READ", "MGET", "EXISTS", "INFO", "PING", "HELLO", "AUTH", "CLIENT", "COMMAND", "SELECT", "QUIT"];
const NOT_REACHED: &str = "ERR the edge has not come as far as the token: try again, or ask another edge";
const SLOW: &str = "ERR PostgreSQL doesn't answer in time";
const ENDED: &str = "ERR the edge has ended";
const ENDED_AMID: &str = "ERR nobody knows whether it was written: the edge has ended";

impl session::Service for Service {
    type Client = Client;

    fn begin(&mut self, number: usize) -> Client {
        self.counts.up(Count::Clients);
        Client { guest: Guest::new(number, &self.shared.host), waits: None }
    }

    /// A command without meaning is answered by an error.
    fn answer(&mut self, client: &mut Client, command: Command, mut turn: Turn) -> Next {
        let begin = turn.to.len();
        let next = command.map_err(|why| format!("ERR {why}")).and_then(|words| self.next(client, &words, &mut turn));
        next.unwrap_or_else(|fault| refused(client, begin, turn, &fault))
    }

    fn go_on(&mut self, client: &mut Client, mut turn: Turn) -> Next {
        let begin = turn.to.len();
        let next = match client.waits.take() {
            None => Ok(Next::Command),
            Some(Waits::Token { awaited, until, read, key }) => {
                self.read_from(client, (read, &key), (awaited.number(), until), &mut turn)
            }
            Some(Waits::Values(values)) => self.tell(client, values, &mut turn),
            Some(Waits::Write { order, told, until }) => self.tell_written(client, order, told, until, &mut turn),
        };
        next.unwrap_or_else(|fault| refused(client, begin, turn, &fault))
    }

    fn break_off(&mut self, client: &mut Client, to: &mut Vec<u8>) {
        let is_writing = |waits| matches!(waits, Waits::Write { order, .. } if order.take().is_none());
        let fault = if client.waits.take().is_some_and(is_writing) { ENDED_AMID } else { ENDED };
        client.guest.reply(to).error(fault);
    }
}

/// Of a reply that was begun nothing stays.
fn refused(client: &mut Client, begin: usize, turn: Turn, fault: &str) -> Next {
    turn.to.truncate(begin);
    client.guest.reply(turn.to).error(fault);
    Next::Command
}

impl Service {
    fn next(&mut self, client: &mut Client, words: &[&str], turn: &mut Turn) -> Result<Next, Fault> {
        let Some((command, arguments)) = words.split_first() else { return Ok(Next::Command) };
        let command = command.to_ascii_uppercase();
        match client.guest.answer(&self.shared.host, (&command, arguments), turn.to)? {
            Answered::No => self.look(client, &command, arguments, turn),
            Answered::Here => Ok(Next::Command),
            Answered::ForTheLastTime => Ok(Next::End),
        }
    }

    fn look(&mut self, client: &mut Client, command: &str, arguments: &[&str], turn: &mut Turn) -> Result<Next, Fault> {
        match (command, arguments) {
            ("GET", [key]) if self.hit(key, &mut client.guest.reply(turn.to)) => Ok(Next::Command),
            ("GET", [key, token @ ..]) => self.read_after(client, (Read::Get, key), token, turn),
            ("READ", [key, token @ ..]) => self.read_after(client, (Read::WithToken, key), token, turn),
            ("MGET", keys @ [_, ..]) => self.read(client, Read::Many, keys, turn),
            ("EXISTS", keys @ [_, ..]) => self.read(client, Read::Exist, keys, turn),
            ("INFO", _) => {
                client.guest.reply(turn.to).bulk(&stats::info(self.shared));
                Ok(Next::Command)
            }
            ("GET" | "READ" | "MGET" | "EXISTS", _) => Err(WRONG_COUNT.into()),
            _ => self.write(client, command, arguments, turn),
        }
    }

    /// Puts the value of a key that is held, without a copy between.
    fn hit(&mut self, key: &str, reply: &mut Reply) -> bool {
        if self.shared.is_stale() {
            return false;
        }
        let Some(value) = self.reader.get(key) else { return false };
        self.counts.up(Count::Hits);
        value.is_read();
        value.push(reply);
        true
    }

    /// Reads once the edge has come as far as a token, where one is brought.
    fn read_after(
        &mut self,
        client: &mut Client,
        (read, key): (Read, &str),
        token: &[&str],
        turn: &mut Turn,
    ) -> Result<Next, Fault> {
        let place: Lsn = match token {
            [] => return self.read(client, read, &[key], turn),
            [token] => token.parse().map_err(|fault| format!("ERR {fault}"))?,
            _ => return Err(WRONG_COUNT.into()),
        };
        let until = Instant::now() + self.shared.configuration.listen.token_wait();
        self.read_from(client, (read, key), (place.0, until), turn)
    }

    fn read_from(
        &mut self,
        client: &mut Client,
        (read, key): (Read, &str),
        (place, until): (u64, Instant),
        turn: &mut Turn,
    ) -> Result<Next, Fault> {
        match self.shared.progress.await_number(place, turn.waker) {
            None => self.read(client, read, &[key], turn),
            Some(_) if until <= Instant::now() => Err(NOT_REACHED.into()),
            Some(awaited) => {
                client.waits = Some(Waits::Token { awaited, until, read, key: key.into() });
                Ok(Next::Wait(Some(until)))
            }
        }
    }

    /// The missing keys are asked for together.
    fn read(&mut self, client: &mut Client, read: Read, keys: &[&str], turn: &mut Turn) -> Result<Next, Fault> {
        let until = Instant::now() + self.shared.configuration.source.deadline();
        let left = keys.iter().map(|key| self.sought(key, turn.waker)).collect::<Result<_, Fault>>()?;
        self.tell(client, Values { read, known: Vec::with_capacity(keys.len()), left, until }, turn)
    }

    fn sought(&mut self, key: &str, waker: &Waker) -> Result<Sought, Fault> {
        match self.found(key) {
            Some(value) => Ok(Sought::Held(value)),
            None => self.miss(key, waker).map(|told| Sought::Asked(key.into(), told)),
        }
    }

    fn found(&mut self, key: &str) -> Option<Arc<Value>> {
        let value = self.reader.get(key).filter(|_| !self.shared.is_stale())?;
        self.counts.up(Count::Hits);
        value.is_read();
        Some(Arc::clone(&value))
    }

    /// Asks for a key that isn't held.
    fn miss(&self, key: &str, waker: &Waker) -> Result<Receiver<Told>, Fault> {
        let views = &self.shared.configuration.views;
        let (name, rest) = key::view_of(key).ok_or("ERR a key is the name of a view, : and the key's texts")?;
        let view = views.iter().position(|view| view.name == name);
        let view = view.ok_or_else(|| format!("ERR there is no view {name}"))?;
        key::parts_of(rest, views[view].key.len()).map_err(|why| format!("ERR {why}"))?;
        self.counts.up(Count::Misses);
        let (client, told) = later(waker);
        self.events.send(Event::Asked { key: key.into(), view, client }).map_err(|_| ENDED)?;
        Ok(told)
    }

    /// Replies where all is known, or else waits for the first that isn't.
    fn tell(&mut self, client: &mut Client, mut values: Values, turn: &mut Turn) -> Result<Next, Fault> {
        while let Some(sought) = values.left.front_mut() {
            let value = match sought {
                Sought::Held(value) => Some(Arc::clone(value)),
                Sought::Asked(key, told) => match told.try_recv() {
                    Ok(Told::Value(value)) => Some(value),
                    Ok(Told::Fault(why)) => return Err(format!("ERR {why}")),
                    Ok(Told::Again) => {
                        *told = self.miss(key, turn.waker)?;
                        None
                    }
                    Err(Empty) if values.until <= Instant::now() => return Err(SLOW.into()),
                    Err(Empty) => {
                        let until = values.until;
                        client.waits = Some(Waits::Values(values));
                        return Ok(Next::Wait(Some(until)));
                    }
                    Err(Disconnected) => return Err(ENDED.into()),
                },
            };
            if let Some(value) = value {
                values.known.push(value);
                values.left.pop_front();
            }
        }
        self.put(&values, client.guest.reply(turn.to));
        Ok(Next::Command)
    }

    fn put(&self, Values { read, known, .. }: &Values, mut reply: Reply) {
        match read {
            Read::Get => {}
            Read::WithToken => reply.array(2),
            Read::Many => reply.array(known.len()),
            Read::Exist => return reply.number(known.iter().filter(|value| value.text.is_some()).count()),
        }
        known.iter().for_each(|value| value.push(&mut reply));
        if let Read::WithToken = read {
            reply.bulk(&Lsn(self.shared.told.load(SeqCst)).to_string());
        }
    }

    /// By the statement that has the command's name.
    fn write(&self, client: &mut Client, command: &str, arguments: &[&str], turn: &mut Turn) -> Result<Next, Fault> {
        let writes = &self.shared.configuration.writes;
        let Some(write) = writes.iter().position(|write| write.name.eq_ignore_ascii_case(command)) else {
            let names = writes.iter().map(|write| format!(", {}", write.name.to_ascii_uppercase()));
            return Err(format!("ERR unknown command: there are {}{}", COMMANDS.join(", "), names.collect::<String>()));
        };
        let (giver, told) = later(turn.waker);
        let order = Order::new(write, arguments, giver);
        self.writes.send(Arc::clone(&order)).map_err(|_| ENDED)?;
        let until = Instant::now() + self.shared.base.deadline;
        client.waits = Some(Waits::Write { order, told, until });
        Ok(Next::Wait(Some(until)))
    }

    /// One that has a connection is waited for as long as that takes.
    fn tell_written(
        &self,
        client: &mut Client,
        order: Arc<Order>,
        told: Receiver<Result<Lsn, Fault>>,
        until: Instant,
        turn: &mut Turn,
    ) -> Result<Next, Fault> {
        match told.try_recv() {
            Ok(place) => {
                let place = place?;
                self.counts.up(Count::Writes);
                client.guest.reply(turn.to).simple(&place.to_string());
                Ok(Next::Command)
            }
            Err(Disconnected) => Err(ENDED.into()),
            Err(Empty) if until <= Instant::now() && order.take().is_some() => Err(writes::NO_ROOM.into()),
            Err(Empty) => {
                client.waits = Some(Waits::Write { order, told, until });
                Ok(Next::Wait((Instant::now() < until).then_some(until)))
            }
        }
    }
}
