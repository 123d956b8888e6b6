//! An event loop: a worker is one thread, which serves many clients and waits for none of them.
use crate::command::Bounds;
use crate::listener::Door;
use crate::session::{Limits, Service, Session};
use crate::wire::{Socket, Wire};
use mio::{event::Event, Events, Interest, Poll, Token};
use std::collections::{BTreeSet, HashMap, VecDeque};
use std::sync::atomic::{AtomicUsize, Ordering::Relaxed};
use std::sync::{Arc, Mutex, PoisonError};
use std::task::{Wake, Waker};
use std::{io, time::Duration, time::Instant};

/// What a worker is told by other threads.
pub enum Mail {
    /// A client, with a number that no other has.
    Comes(usize, Box<dyn Socket>),
    /// What a session waits for may have come.
    Woken(usize),
    /// Nobody is heard any more. Whose command still waits by then has an error.
    Ends(Instant),
}

/// By which other threads tell it.
pub struct Mailbox {
    mail: Mutex<Vec<Mail>>,
    bell: mio::Waker,
    /// How many the worker has. The door alone changes it.
    clients: AtomicUsize,
}

impl Mailbox {
    pub fn clients(&self) -> usize {
        self.clients.load(Relaxed)
    }

    pub fn comes(&self, number: usize, client: Box<dyn Socket>) {
        self.clients.fetch_add(1, Relaxed);
        self.put(Mail::Comes(number, client));
    }

    pub fn has_left(&self) {
        self.clients.fetch_sub(1, Relaxed);
    }

    pub fn put(&self, mail: Mail) {
        let mut all = self.mail.lock().unwrap_or_else(PoisonError::into_inner);
        all.push(mail);
        // Who has put the first has rung.
        if all.len() == 1 {
            drop(all);
            // The loop's end of it stays as long as this one.
            _ = self.bell.wake();
        }
    }

    fn taken(&self) -> Vec<Mail> {
        std::mem::take(&mut self.mail.lock().unwrap_or_else(PoisonError::into_inner))
    }
}

/// Wakes one session.
struct Bell {
    mailbox: Arc<Mailbox>,
    session: usize,
}

impl Wake for Bell {
    fn wake(self: Arc<Self>) {
        self.wake_by_ref();
    }

    fn wake_by_ref(self: &Arc<Self>) {
        self.mailbox.put(Mail::Woken(self.session));
    }
}

/// One that no worker runs yet.
pub struct EventLoop {
    poll: Poll,
    mailbox: Arc<Mailbox>,
}

const BELL: Token = Token(usize::MAX);

impl EventLoop {
    pub fn new() -> io::Result<EventLoop> {
        let poll = Poll::new()?;
        let bell = mio::Waker::new(poll.registry(), BELL)?;
        let mailbox = Mailbox { mail: Mutex::default(), bell, clients: AtomicUsize::new(0) };
        Ok(EventLoop { poll, mailbox: Arc::new(mailbox) })
    }

    pub fn mailbox(&self) -> Arc<Mailbox> {
        Arc::clone(&self.mailbox)
    }

    /// Serves those who come in by the door, until that is shut.
    pub fn run<S: Service>(self, door: &Door, service: S, limits: Limits, bounds: Bounds) {
        let worker = Worker {
            at: self,
            door,
            service,
            limits,
            bounds,
            sessions: HashMap::new(),
            turns: VecDeque::new(),
            alarms: BTreeSet::new(),
            ends: None,
        };
        worker.run();
    }
}

/// One that is here.
struct Seat<C> {
    session: Session<C>,
    /// Whether it is among those whose turn comes.
    is_in_turns: bool,
    /// When it is looked at whether its time is up.
    alarm: Option<Instant>,
}

struct Worker<'a, S: Service> {
    at: EventLoop,
    door: &'a Door,
    service: S,
    limits: Limits,
    bounds: Bounds,
    sessions: HashMap<usize, Seat<S::Client>>,
    /// Who has waited longest for a turn is the first.
    turns: VecDeque<usize>,
    alarms: BTreeSet<(Instant, usize)>,
    ends: Option<Instant>,
}

impl<S: Service> Worker<'_, S> {
    fn run(mut self) {
        let mut events = Events::with_capacity(256);
        while !self.is_over() {
            let pause = self.pause();
            // A signal ends it, after which nothing has come.
            if self.at.poll.poll(&mut events, pause).is_err() {
                events.clear();
            }
            events.iter().for_each(|event| self.hear(event));
            self.at.mailbox.taken().into_iter().for_each(|mail| self.open(mail));
            self.look_at_alarms();
            for _ in 0..self.turns.len() {
                if let Some(number) = self.turns.pop_front() {
                    self.turn(number);
                }
            }
        }
        for (_, mut seat) in self.sessions.drain() {
            seat.session.break_off(&mut self.service);
            self.door.leave(&self.at.mailbox);
        }
    }

    fn is_over(&self) -> bool {
        self.ends.is_some_and(|end| self.sessions.is_empty() || end <= Instant::now())
    }

    /// Until the first one's time is up.
    fn pause(&self) -> Option<Duration> {
        if !self.turns.is_empty() {
            return Some(Duration::ZERO);
        }
        let first = self.alarms.first().map(|(alarm, _)| *alarm).into_iter().chain(self.ends).min()?;
        Some(first.saturating_duration_since(Instant::now()))
    }

    fn hear(&mut self, event: &Event) {
        let (can_read, can_write) = (event.is_readable(), event.is_writable());
        let may_end = event.is_read_closed() || event.is_write_closed() || event.is_error();
        self.give_turn(event.token().0, |session| session.hear(can_read, can_write, may_end));
    }

    fn open(&mut self, mail: Mail) {
        match mail {
            Mail::Comes(number, socket) => self.come(number, socket),
            Mail::Woken(number) => self.give_turn(number, |session| session.is_away()),
            Mail::Ends(end) => {
                self.ends = Some(end);
                let all: Vec<usize> = self.sessions.keys().copied().collect();
                all.into_iter().for_each(|number| self.give_turn(number, Session::hear_no_more));
            }
        }
    }

    fn come(&mut self, number: usize, mut socket: Box<dyn Socket>) {
        let both = Interest::READABLE | Interest::WRITABLE;
        if self.at.poll.registry().register(&mut *socket, Token(number), both).is_err() {
            return self.door.leave(&self.at.mailbox);
        }
        let waker = Waker::from(Arc::new(Bell { mailbox: self.at.mailbox(), session: number }));
        let client = self.service.begin(number);
        let session = Session::new(Wire::new(socket, self.bounds), client, waker);
        self.sessions.insert(number, Seat { session, is_in_turns: false, alarm: None });
        let is_over = self.ends.is_some();
        self.give_turn(number, |session| !is_over || session.hear_no_more());
    }

    /// Gives a session a turn after the others, if it is here and needs one.
    fn give_turn(&mut self, number: usize, needs: impl FnOnce(&mut Session<S::Client>) -> bool) {
        let Some(seat) = self.sessions.get_mut(&number) else { return };
        if needs(&mut seat.session) && !seat.is_in_turns {
            seat.is_in_turns = true;
            self.turns.push_back(number);
        }
    }

    fn turn(&mut self, number: usize) {
        let Some(seat) = self.sessions.get_mut(&number) else { return };
        seat.is_in_turns = false;
        // That a client breaks off is no fault.
        if seat.session.turn(&mut self.service).is_err() {
            return self.leave(number);
        }
        if seat.session.is_late(&self.limits) {
            return self.send_away(number);
        }
        self.give_turn(number, |session| session.needs_turn());
        self.set_alarm(number);
    }

    /// One that is set and too early stays, and is set anew when it is looked at.
    fn set_alarm(&mut self, number: usize) {
        let Some(seat) = self.sessions.get_mut(&number) else { return };
        let Some(due) = seat.session.due(&self.limits) else { return };
        if seat.alarm.is_none_or(|alarm| due < alarm) {
            let before = seat.alarm.replace(due);
            before.into_iter().for_each(|alarm| _ = self.alarms.remove(&(alarm, number)));
            self.alarms.insert((due, number));
        }
    }

    fn look_at_alarms(&mut self) {
        let now = Instant::now();
        while self.alarms.first().is_some_and(|(alarm, _)| *alarm <= now) {
            let Some((_, number)) = self.alarms.pop_first() else { return };
            let Some(seat) = self.sessions.get_mut(&number) else { continue };
            seat.alarm = None;
            match seat.session.due(&self.limits) {
                Some(due) if due > now => self.set_alarm(number),
                Some(_) if seat.session.is_away() => self.give_turn(number, |_| true),
                // What came just now is looked at first.
                Some(_) if seat.is_in_turns => {}
                Some(_) => self.send_away(number),
                None => {}
            }
        }
    }

    fn send_away(&mut self, number: usize) {
        self.service.sends_away();
        self.leave(number);
    }

    fn leave(&mut self, number: usize) {
        let Some(seat) = self.sessions.remove(&number) else { return };
        seat.alarm.into_iter().for_each(|alarm| _ = self.alarms.remove(&(alarm, number)));
        self.door.leave(&self.at.mailbox);
    }
}

#[cfg(test)]
pub mod tests {
    use super::*;
    use crate::command::Command;
    use crate::session::{Next, Turn};
    use crate::wire::tests::Fake;
    use std::io::{Read, Write};
    use std::os::unix::net::UnixStream;
    use std::sync::mpsc::{channel, Receiver, Sender};
    use std::{net::Shutdown, thread};

    const BOUNDS: Bounds = Bounds { words: 8, bytes: 100_000 };
    /// Only against hanging for ever.
    const LONG: Duration = Duration::from_secs(30);
    const PATIENT: Limits = Limits { idle: Duration::from_secs(3600), half: LONG };

    /// Says what it hears. WAIT is answered when its session is woken, or after so many milliseconds.
    struct Parrot {
        /// Each command, with its client's number.
        heard: Sender<(usize, String)>,
        wakers: Sender<Waker>,
    }

    struct Client {
        number: usize,
        until: Option<Instant>,
        is_woken: bool,
    }

    impl Service for Parrot {
        type Client = Client;

        fn begin(&mut self, number: usize) -> Client {
            Client { number, until: None, is_woken: false }
        }

        fn answer(&mut self, client: &mut Client, command: Command, turn: Turn) -> Next {
            _ = self.heard.send((client.number, format!("{command:?}")));
            match command.as_deref() {
                Ok(["WAIT", millis @ ..]) => {
                    let wait = |millis: &&str| Instant::now() + Duration::from_millis(millis.parse().unwrap());
                    client.until = millis.first().map(wait);
                    self.wakers.send(turn.waker.clone()).unwrap();
                    Next::Wait(client.until)
                }
                Ok(["MANY", bytes]) => {
                    turn.to.extend(vec![b'x'; bytes.parse().unwrap()]);
                    Next::Command
                }
                told => {
                    turn.to.extend(format!("{told:?}\n").into_bytes());
                    if command == Ok(vec!["QUIT"]) {
                        Next::End
                    } else {
                        Next::Command
                    }
                }
            }
        }

        fn go_on(&mut self, client: &mut Client, turn: Turn) -> Next {
            let is_late = client.until.is_some_and(|until| until <= Instant::now());
            turn.to.extend(if is_late { b"late\n" } else { b"woke\n" });
            client.is_woken = true;
            Next::Command
        }
    }

    /// What a worker says that it has heard, and the wakers of those who wait.
    pub struct Told {
        heard: Receiver<(usize, String)>,
        wakers: Receiver<Waker>,
    }

    /// One worker more behind a door, once those who are given have come.
    fn works(door: &'static Door, limits: Limits, come: impl FnOnce()) -> Told {
        let ((to_heard, heard), (to_wakers, wakers)) = (channel(), channel());
        let at = EventLoop::new().unwrap();
        door.leads_to(at.mailbox());
        come();
        thread::spawn(move || at.run(door, Parrot { heard: to_heard, wakers: to_wakers }, limits, BOUNDS));
        Told { heard, wakers }
    }

    pub fn door(clients: usize) -> &'static Door {
        Box::leak(Box::new(Door::new(clients)))
    }

    pub fn works_at(door: &'static Door) -> Told {
        works(door, PATIENT, || ())
    }

    fn comes_in(door: &Door) -> UnixStream {
        let (client, stream) = UnixStream::pair().unwrap();
        client.set_read_timeout(Some(LONG)).unwrap();
        stream.set_nonblocking(true).unwrap();
        assert!(door.enter(Box::new(mio::net::UnixStream::from_std(stream))).is_ok());
        client
    }

    /// A client of a worker, which has sent this before it is heard.
    fn served(limits: Limits, sends: &[u8]) -> (UnixStream, Told) {
        let (door, mut client) = (door(9), None);
        let told = works(door, limits, || client.insert(comes_in(door)).write_all(sends).unwrap());
        (client.unwrap(), told)
    }

    fn rest(client: &mut UnixStream) -> String {
        let mut text = String::new();
        client.read_to_string(&mut text).unwrap();
        text
    }

    fn reads(client: &mut UnixStream, wanted: &str) {
        let mut replies = vec![0; wanted.len()];
        client.read_exact(&mut replies).unwrap();
        assert_eq!(String::from_utf8_lossy(&replies), wanted);
    }

    #[test]
    fn commands_are_answered_in_their_order() {
        let (mut client, _told) = served(PATIENT, b"a b\r\n*1\r\n$1\r\nc\r\n");
        reads(&mut client, "Ok([\"a\", \"b\"])\nOk([\"c\"])\n");
        client.write_all(b"*1\r\n$1\r").unwrap();
        client.write_all(b"\nd\r\n\xff\r\nQUIT\r\nnobody hears that\r\n").unwrap();
        assert_eq!(rest(&mut client), "Ok([\"d\"])\nErr(\"a word is not UTF-8\")\nOk([\"QUIT\"])\n");
    }

    #[test]
    fn more_than_is_read_at_a_time_is_one_command() {
        let word = "x".repeat(4000);
        let command = format!("*8\r\n{}QUIT\r\n", format!("$4000\r\n{word}\r\n").repeat(8));
        let (mut client, _told) = served(PATIENT, command.as_bytes());
        assert_eq!(rest(&mut client), format!("{:?}\nOk([\"QUIT\"])\n", Command::Ok(vec![&word; 8])));
    }

    #[test]
    fn a_reply_to_what_is_no_command_is_the_last() {
        let (mut client, _told) = served(PATIENT, b"a\r\n*x\r\nb\r\n");
        assert_eq!(rest(&mut client), "Ok([\"a\"])\n-ERR Protocol error: a length is out of its limits\r\n");
        // It is still read from, so that it sees that.
        client.write_all(b"more").unwrap();
    }

    #[test]
    fn who_sends_no_more_has_its_replies() {
        let sends = "MANY 50000\r\n".repeat(100);
        let (mut client, _told) = served(PATIENT, sends.as_bytes());
        client.write_all(b"last\r\nhalf").unwrap();
        client.shutdown(Shutdown::Write).unwrap();
        assert_eq!(rest(&mut client), format!("{}Ok([\"last\"])\n", "x".repeat(5_000_000)));
    }

    #[test]
    fn who_says_nothing_goes_and_so_does_who_leaves_half_a_command() {
        let soon = Duration::from_millis(1);
        let (mut idle, _told) = served(Limits { idle: soon, half: LONG }, b"");
        assert_eq!(rest(&mut idle), "");
        let (mut slow, _told) = served(Limits { idle: LONG, half: soon }, b"whole\r\nhalf");
        assert_eq!(rest(&mut slow), "Ok([\"whole\"])\n");
    }

    #[test]
    fn who_brings_a_command_bit_by_bit_goes() {
        let (mut client, _told) = served(Limits { idle: LONG, half: Duration::from_millis(50) }, b"x");
        let begin = Instant::now();
        while client.write_all(b"x").is_ok() {
            assert!(begin.elapsed() < LONG, "it stays");
            thread::sleep(Duration::from_millis(1));
        }
        // Where a byte had come that nobody read, its end is a reset.
        let mut told = Vec::new();
        let end = client.read_to_end(&mut told).map_err(|fault| fault.kind());
        assert!(matches!(end, Ok(0) | Err(std::io::ErrorKind::ConnectionReset)) && told.is_empty());
    }

    #[test]
    fn who_sends_on_after_its_last_reply_goes() {
        let door = door(9);
        let _told = works(door, Limits { idle: LONG, half: Duration::from_millis(1) }, || {
            let flood = Fake { reads: b"*x\r\n".into(), goes_on: true, ..Fake::default() };
            assert!(door.enter(Box::new(flood)).is_ok());
        });
        let begin = Instant::now();
        while door.count() > 0 {
            assert!(begin.elapsed() < LONG, "it stays");
            thread::sleep(Duration::from_millis(1));
        }
    }

    #[test]
    fn who_reads_no_replies_goes_and_others_are_served() {
        let door = door(9);
        let _told = works(door, Limits { idle: LONG, half: Duration::from_millis(50) }, || ());
        let [mut deaf, mut other] = [comes_in(door), comes_in(door)];
        let begin = Instant::now();
        while deaf.write_all(&b"MANY 50000\r\n".repeat(100)).is_ok() {
            assert!(begin.elapsed() < LONG, "it stays");
            other.write_all(b"a\r\n").unwrap();
            reads(&mut other, "Ok([\"a\"])\n");
        }
    }

    #[test]
    fn who_sends_much_at_once_has_a_turn_and_then_others_have_theirs() {
        let door = door(9);
        let mut clients = Vec::new();
        let told = works(door, PATIENT, || {
            for sends in ["a\r\n".repeat(1000), "MANY 30000\r\n".repeat(9), "b\r\n".into()] {
                let mut client = comes_in(door);
                client.write_all(sends.as_bytes()).unwrap();
                clients.push(client);
            }
        });
        let heard: Vec<_> = told.heard.iter().take(1010).map(|(number, _)| number).collect();
        let before = |client| {
            heard
                .iter()
                .position(|number| *number == 3)
                .map(|end| heard[..end].iter().filter(|it| **it == client).count())
        };
        assert_eq!((before(1), before(2)), (Some(64), Some(3)));
    }

    #[test]
    fn who_waits_holds_nobody_and_its_replies_stay_in_order() {
        let door = door(9);
        let told = works(door, PATIENT, || ());
        let [mut waiting, mut other] = [comes_in(door), comes_in(door)];
        waiting.write_all(b"a\r\nWAIT\r\nb\r\n").unwrap();
        reads(&mut waiting, "Ok([\"a\"])\n");
        let waker = told.wakers.recv().unwrap();
        waiting.write_all(b"c\r\n").unwrap();
        other.write_all(b"d\r\n").unwrap();
        reads(&mut other, "Ok([\"d\"])\n");
        waker.wake_by_ref();
        reads(&mut waiting, "woke\nOk([\"b\"])\nOk([\"c\"])\n");
        // A wake that nobody waits for does nothing.
        waker.wake();
        waiting.write_all(b"QUIT\r\n").unwrap();
        assert_eq!(rest(&mut waiting), "Ok([\"QUIT\"])\n");
    }

    #[test]
    fn who_waits_goes_on_when_its_time_is_up() {
        // It says nothing meanwhile, and stays.
        let (mut client, told) = served(Limits { idle: Duration::from_millis(1), half: LONG }, b"WAIT 50\r\n");
        let _waker = told.wakers.recv().unwrap();
        assert_eq!(rest(&mut client), "late\n");
    }

    #[test]
    fn who_has_gone_while_it_waited_is_not_answered() {
        let door = door(9);
        let told = works(door, PATIENT, || ());
        let mut client = comes_in(door);
        client.write_all(b"WAIT\r\n").unwrap();
        let waker = told.wakers.recv().unwrap();
        drop(client);
        waker.wake_by_ref();
        door.shut(LONG);
        assert_eq!(door.count(), 0);
        waker.wake();
    }

    #[test]
    fn a_door_that_is_shut_has_those_answered_who_wait() {
        let door = door(9);
        let told = works(door, PATIENT, || ());
        let mut client = comes_in(door);
        client.write_all(b"WAIT\r\na\r\n").unwrap();
        let waker = told.wakers.recv().unwrap();
        let shuts = thread::spawn(|| door.shut(100 * LONG));
        waker.wake();
        assert_eq!(rest(&mut client), "woke\nOk([\"a\"])\n");
        shuts.join().unwrap();
        assert_eq!(door.count(), 0);
    }

    #[test]
    fn a_door_that_is_shut_waits_no_longer_than_it_may() {
        let door = door(9);
        let told = works(door, PATIENT, || ());
        let mut client = comes_in(door);
        client.write_all(b"WAIT\r\n").unwrap();
        let _waker = told.wakers.recv().unwrap();
        door.shut(Duration::from_millis(1));
        assert_eq!(rest(&mut client), "-ERR the server has ended\r\n");
    }

    #[test]
    fn clients_are_parted_among_the_workers() {
        let door = door(9);
        let tolds = [works_at(door), works_at(door), works_at(door)];
        let mut clients = [(); 9].map(|()| comes_in(door));
        for client in &mut clients {
            client.write_all(b"a\r\n").unwrap();
            reads(client, "Ok([\"a\"])\n");
        }
        assert_eq!(tolds.map(|told| told.heard.try_iter().count()), [3, 3, 3]);
    }
}
