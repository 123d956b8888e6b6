//! A client's connection: what has come by it, and the replies that haven't gone yet. Nothing here waits for the client.
use crate::command::{command, Bounds, Command};
use mio::{event::Source, net::TcpStream, net::UnixStream};
use std::cell::RefCell;
use std::io::{self, ErrorKind, Read, Write};
use std::net::Shutdown;

/// Where replies of so many bytes wait to go, no more are put.
pub const MOST_REPLIES: usize = 65_536;
/// What is read at a time.
const ROOM: usize = 16_384;

thread_local! {
    /// What a worker reads into, since to clear so much for each read takes longer than most reads.
    static READ: RefCell<[u8; ROOM]> = const { RefCell::new([0; ROOM]) };
}

pub trait Socket: Source + Read + Write + Send {
    fn shut(&self, ways: Shutdown) -> io::Result<()>;
}

impl Socket for TcpStream {
    fn shut(&self, ways: Shutdown) -> io::Result<()> {
        self.shutdown(ways)
    }
}

impl Socket for UnixStream {
    fn shut(&self, ways: Shutdown) -> io::Result<()> {
        self.shutdown(ways)
    }
}

/// What becomes of a step.
pub enum Step<T> {
    /// A command was answered.
    Answered(T),
    /// Nobody can tell where the command ends, which was answered by an error.
    Refused,
    /// More has come.
    Came,
    /// Nothing can be done before the socket has more, or has room.
    Nothing,
}

pub struct Wire {
    socket: Box<dyn Socket>,
    bounds: Bounds,
    came: Vec<u8>,
    /// So many bytes of what came are answered.
    answered: usize,
    replies: Vec<u8>,
    /// So many bytes of the replies have gone.
    gone: usize,
    /// Whether the socket may have more, and room, for all that is known.
    may_read: bool,
    may_write: bool,
    /// Whether the client's side may have ended, behind what it sent.
    may_end: bool,
    /// Whether the last reply was put. What still comes is passed over.
    is_over: bool,
    /// How many commands were answered, and how often replies went.
    moves: u64,
    /// The bytes that came, and those of replies.
    bytes: u64,
}

impl Wire {
    pub fn new(socket: Box<dyn Socket>, bounds: Bounds) -> Wire {
        let [came, replies] = [const { Vec::new() }; 2];
        Wire {
            socket,
            bounds,
            came,
            answered: 0,
            replies,
            gone: 0,
            may_read: true,
            may_write: true,
            may_end: false,
            is_over: false,
            moves: 0,
            bytes: 0,
        }
    }

    /// After the system has told of the socket: whether there is something to do.
    pub fn hear(&mut self, can_read: bool, can_write: bool, may_end: bool) -> bool {
        self.may_end |= may_end;
        self.may_read |= can_read || may_end;
        self.may_write |= can_write;
        self.may_read || can_write && !self.replies.is_empty()
    }

    /// What has come before is the last.
    pub fn hear_no_more(&mut self) {
        // Where this fails the client has gone.
        _ = self.socket.shut(Shutdown::Read);
        self.hear(true, false, true);
    }

    pub fn moves(&self) -> u64 {
        self.moves
    }

    pub fn bytes(&self) -> u64 {
        self.bytes
    }

    /// Whether the client has to bring the rest of a command, to read replies, or to go.
    pub fn is_owed(&self) -> bool {
        self.is_over || !self.replies.is_empty() || self.answered < self.came.len()
    }

    /// Has a reply put that `answer` gives.
    pub fn put<T>(&mut self, answer: impl FnOnce(&[u8], &mut Vec<u8>) -> T) -> T {
        let before = self.replies.len();
        let put = answer(&self.came[self.answered..], &mut self.replies);
        self.bytes += (self.replies.len() - before) as u64;
        self.moves += 1;
        put
    }

    /// Has the next command answered, which `answer` is given with what came after it, or else reads more, once the replies
    /// before have gone. Refused where the client has gone.
    pub fn step<T>(&mut self, answer: impl FnOnce(Command, &[u8], &mut Vec<u8>) -> T) -> io::Result<Step<T>> {
        if self.is_over {
            return self.pass_over();
        }
        if self.replies.len() - self.gone >= MOST_REPLIES && !self.send()? {
            return Ok(Step::Nothing);
        }
        match command(&self.came[self.answered..], &self.bounds) {
            Ok(Some((words, size))) => {
                let (before, rest) = (self.replies.len(), self.answered + size);
                let told = answer(words, &self.came[rest..], &mut self.replies);
                self.answered = rest;
                self.bytes += (self.replies.len() - before) as u64;
                self.moves += 1;
                Ok(Step::Answered(told))
            }
            Ok(None) => {
                self.came.drain(..std::mem::take(&mut self.answered));
                self.came.shrink_to(4 * ROOM);
                if !self.send()? {
                    return Ok(Step::Nothing);
                }
                self.read()
            }
            Err(why) => {
                self.put(|_, to| to.extend(format!("-ERR Protocol error: {why}\r\n").into_bytes()));
                Ok(Step::Refused)
            }
        }
    }

    /// Reads once.
    fn read<T>(&mut self) -> io::Result<Step<T>> {
        if !self.may_read {
            return Ok(Step::Nothing);
        }
        match READ.with_borrow_mut(|room| self.socket.read(room).inspect(|size| self.came.extend(&room[..*size]))) {
            Ok(0) => Err(ErrorKind::UnexpectedEof.into()),
            Ok(size) => {
                self.bytes += size as u64;
                // The system tells of what comes later, but not again of an end that it has told of.
                self.may_read = size == ROOM || self.may_end;
                Ok(Step::Came)
            }
            Err(why) if why.kind() == ErrorKind::WouldBlock => {
                self.may_read = false;
                Ok(Step::Nothing)
            }
            Err(why) if why.kind() == ErrorKind::Interrupted => Ok(Step::Came),
            Err(why) => Err(why),
        }
    }

    /// Sends as much as can be sent: whether that was all.
    pub fn send(&mut self) -> io::Result<bool> {
        while self.may_write && self.gone < self.replies.len() {
            match self.socket.write(&self.replies[self.gone..]) {
                Ok(0) => return Err(ErrorKind::WriteZero.into()),
                Ok(size) => {
                    self.gone += size;
                    self.moves += 1;
                }
                Err(why) if why.kind() == ErrorKind::WouldBlock => self.may_write = false,
                Err(why) if why.kind() == ErrorKind::Interrupted => {}
                Err(why) => return Err(why),
            }
        }
        if self.gone < self.replies.len() {
            return Ok(false);
        }
        self.gone = 0;
        self.replies.clear();
        self.replies.shrink_to(2 * MOST_REPLIES);
        Ok(true)
    }

    /// The last reply was put. The client may send on until it has seen that, or else it might not see it.
    pub fn end(&mut self) {
        self.is_over = true;
    }

    fn pass_over<T>(&mut self) -> io::Result<Step<T>> {
        (self.came, self.answered) = (Vec::new(), 0);
        if !self.send()? {
            return Ok(Step::Nothing);
        }
        self.socket.shut(Shutdown::Write)?;
        self.read()
    }
}

#[cfg(test)]
pub mod tests {
    use super::*;
    use mio::{Interest, Registry, Token};
    use std::sync::{Arc, Mutex};

    /// A socket of which each test says what it has.
    #[derive(Default)]
    pub struct Fake {
        pub reads: Vec<u8>,
        /// Whether there is always more to read, or the end comes then.
        pub goes_on: bool,
        /// Has room for so many bytes.
        pub room: Arc<Mutex<usize>>,
        pub written: Arc<Mutex<Vec<u8>>>,
    }

    impl Read for Fake {
        fn read(&mut self, room: &mut [u8]) -> io::Result<usize> {
            let size = room.len().min(self.reads.len());
            room[..size].copy_from_slice(&self.reads[..size]);
            self.reads.drain(..size);
            room[size..].fill(b'x');
            Ok(if self.goes_on { room.len() } else { size })
        }
    }

    impl Write for Fake {
        fn write(&mut self, bytes: &[u8]) -> io::Result<usize> {
            let mut room = self.room.lock().unwrap();
            let size = if self.goes_on { bytes.len() } else { bytes.len().min(*room) };
            *room = room.saturating_sub(size);
            self.written.lock().unwrap().extend(&bytes[..size]);
            if size > 0 {
                Ok(size)
            } else {
                Err(ErrorKind::WouldBlock.into())
            }
        }

        fn flush(&mut self) -> io::Result<()> {
            Ok(())
        }
    }

    impl Source for Fake {
        fn register(&mut self, _: &Registry, _: Token, _: Interest) -> io::Result<()> {
            Ok(())
        }

        fn reregister(&mut self, _: &Registry, _: Token, _: Interest) -> io::Result<()> {
            Ok(())
        }

        fn deregister(&mut self, _: &Registry) -> io::Result<()> {
            Ok(())
        }
    }

    impl Socket for Fake {
        fn shut(&self, _: Shutdown) -> io::Result<()> {
            Ok(())
        }
    }
}
