//! A session: one client's commands are answered in their order, so many a turn, and then others have theirs. One whose
//! command waits for something else than the client is woken for that.
use crate::command::Command;
use crate::wire::{Step, Wire};
use std::io;
use std::task::Waker;
use std::time::{Duration, Instant};

/// What a worker answers its clients with.
pub trait Service {
    /// What is known of one client, and what its command waits for.
    type Client;

    /// Of a client that comes. No two have the same number.
    fn begin(&mut self, number: usize) -> Self::Client;

    /// Answers a command.
    fn answer(&mut self, client: &mut Self::Client, command: Command, turn: Turn) -> Next;

    /// Goes on with the command that waits: its session was woken, for whatever reason, or its time is up.
    fn go_on(&mut self, client: &mut Self::Client, turn: Turn) -> Next;

    /// The end has come before what its command waits for: that is its reply.
    fn break_off(&mut self, _: &mut Self::Client, to: &mut Vec<u8>) {
        to.extend(b"-ERR the server has ended\r\n");
    }

    /// A client was sent away, since it said nothing for too long, or owed something.
    fn sends_away(&mut self) {}
}

/// What a command is answered with.
pub struct Turn<'a> {
    /// Where the reply is put.
    pub to: &'a mut Vec<u8>,
    /// What has come after the command.
    pub rest: &'a [u8],
    /// Wakes the session.
    pub waker: &'a Waker,
}

/// What comes after a command.
#[derive(Clone, Copy, Debug, PartialEq, Eq)]
pub enum Next {
    Command,
    /// Its reply was the last.
    End,
    /// It has no reply yet: the session is to be woken, and at this time at the latest.
    Wait(Option<Instant>),
}

/// How long a client may say nothing, and owe the rest of a command or the reading of replies.
#[derive(Clone, Copy)]
pub struct Limits {
    pub idle: Duration,
    pub half: Duration,
}

/// So many commands, and bytes that came or go, are one's before others have their turn.
const COMMANDS_A_TURN: u32 = 64;
const BYTES_A_TURN: u64 = 65_536;

/// What a session waits for.
#[derive(Clone, Copy, PartialEq, Eq)]
enum State {
    /// Its client.
    Client,
    /// Being woken, until then at the latest.
    Waker(Option<Instant>),
    /// The others' turns.
    Turn,
}

pub struct Session<C> {
    wire: Wire,
    client: C,
    waker: Waker,
    state: State,
    /// Whether the client owes something, and since when, or since when it says nothing.
    owes: bool,
    since: Instant,
}

impl<C> Session<C> {
    pub fn new(wire: Wire, client: C, waker: Waker) -> Session<C> {
        Session { wire, client, waker, state: State::Client, owes: false, since: Instant::now() }
    }

    /// After the system has told of the socket: whether the session needs a turn.
    pub fn hear(&mut self, can_read: bool, can_write: bool, may_end: bool) -> bool {
        let is_needed = self.wire.hear(can_read, can_write, may_end);
        if self.is_away() {
            // The replies before. That the client has gone is seen in its next turn.
            _ = self.wire.send();
        }
        is_needed && self.state == State::Client
    }

    /// What came before is the last: whether the session needs a turn.
    pub fn hear_no_more(&mut self) -> bool {
        self.wire.hear_no_more();
        self.state == State::Client
    }

    pub fn needs_turn(&self) -> bool {
        self.state == State::Turn
    }

    /// Whether it waits for something else than its client.
    pub fn is_away(&self) -> bool {
        matches!(self.state, State::Waker(_))
    }

    /// When its time is up: it is to go on, or its client to go.
    pub fn due(&self, limits: &Limits) -> Option<Instant> {
        match self.state {
            State::Client | State::Turn => Some(self.since + if self.owes { limits.half } else { limits.idle }),
            State::Waker(until) => until,
        }
    }

    /// Whether its client is to go.
    pub fn is_late(&self, limits: &Limits) -> bool {
        !self.is_away() && self.due(limits).is_some_and(|due| due <= Instant::now())
    }

    /// Serves the client until that is waited for, or else, or until others have their turn. Refused where it has gone.
    pub fn turn(&mut self, service: &mut impl Service<Client = C>) -> io::Result<()> {
        let moves = self.wire.moves();
        self.state = self.serve(service)?;
        let owes = self.wire.is_owed();
        // Who brings the rest bit by bit gains no time.
        if owes != self.owes || moves != self.wire.moves() {
            (self.owes, self.since) = (owes, Instant::now());
        }
        Ok(())
    }

    /// The last that it does, in which a client whose command still waits is told of the end.
    pub fn break_off(&mut self, service: &mut impl Service<Client = C>) {
        if self.is_away() {
            let client = &mut self.client;
            self.wire.put(|_, to| service.break_off(client, to));
            // Who has no room for it, or has gone, isn't waited for.
            _ = self.wire.send();
        }
    }

    fn serve(&mut self, service: &mut impl Service<Client = C>) -> io::Result<State> {
        let (begin, mut commands) = (self.wire.bytes(), 0);
        let (wire, client, waker) = (&mut self.wire, &mut self.client, &self.waker);
        let mut step = match self.state {
            State::Waker(_) => Step::Answered(wire.put(|rest, to| service.go_on(client, Turn { to, rest, waker }))),
            State::Client | State::Turn => Step::Came,
        };
        loop {
            match step {
                Step::Answered(Next::Wait(until)) => {
                    wire.send()?;
                    return Ok(State::Waker(until));
                }
                Step::Answered(Next::End) | Step::Refused => wire.end(),
                Step::Answered(Next::Command) => commands += 1,
                Step::Came => {}
                Step::Nothing => return Ok(State::Client),
            }
            if commands == COMMANDS_A_TURN || wire.bytes() - begin >= BYTES_A_TURN {
                wire.send()?;
                return Ok(State::Turn);
            }
            step = wire.step(|command, rest, to| service.answer(client, command, Turn { to, rest, waker }))?;
        }
    }
}

#[cfg(test)]
mod tests {
    use super::*;
    use crate::command::Bounds;
    use crate::wire::tests::Fake;
    use std::sync::{Arc, Mutex};

    /// Answers each command with its first word, but for one that waits.
    struct Echo;

    impl Service for Echo {
        type Client = ();

        fn begin(&mut self, _: usize) {}

        fn answer(&mut self, (): &mut (), command: Command, turn: Turn) -> Next {
            match command.as_deref() {
                Ok(["wait"]) => Next::Wait(None),
                Ok([word, ..]) => {
                    turn.to.extend(word.as_bytes());
                    Next::Command
                }
                _ => Next::End,
            }
        }

        fn go_on(&mut self, (): &mut (), turn: Turn) -> Next {
            turn.to.extend(b"woken");
            Next::Command
        }
    }

    #[test]
    fn the_replies_before_go_while_a_command_waits() {
        let (room, written) = (Arc::new(Mutex::new(2)), Arc::<Mutex<Vec<u8>>>::default());
        let told = || String::from_utf8(written.lock().unwrap().clone()).unwrap();
        let fake = Fake {
            reads: b"abc\nwait\nd\n".into(),
            room: Arc::clone(&room),
            written: Arc::clone(&written),
            goes_on: false,
        };
        let wire = Wire::new(Box::new(fake), Bounds { words: 1, bytes: 99 });
        let mut session = Session::new(wire, (), Waker::noop().clone());
        // The end of its client's side has come with what it sent.
        assert!(session.hear(true, true, true));
        session.turn(&mut Echo).unwrap();
        assert_eq!((told(), session.is_away()), ("ab".into(), true));
        *room.lock().unwrap() = 9;
        assert!(!session.hear(false, true, false), "it has no turn");
        assert_eq!(told(), "abc");
        // It is seen behind that.
        assert!(session.turn(&mut Echo).is_err());
        assert_eq!(told(), "abcwokend");
    }
}
