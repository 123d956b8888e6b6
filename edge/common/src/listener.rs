//! The listeners: a client comes in while there is room, and is one worker's from then on; all go when the process is told
//! to end.
use crate::event_loop::{Mail, Mailbox};
use crate::wire::Socket;
use std::net::{SocketAddr, TcpListener};
use std::os::unix::{fs::FileTypeExt, net::UnixListener, net::UnixStream};
use std::sync::{Arc, Condvar, Mutex, MutexGuard, PoisonError};
use std::{fs, io, path::Path, thread, time::Duration, time::Instant};

pub enum Listener {
    Tcp(TcpListener),
    Unix(UnixListener),
}

/// Why who comes is not let in.
pub enum Refusal {
    NoRoom,
    /// The system has no more files, or the like. Who comes then waits.
    Fault(io::Error),
}

/// What is said to who comes where there is no room.
const NO_ROOM: &[u8] = b"-ERR max number of clients reached\r\n";
/// In which workers tell those whose commands still wait at the end.
const MOMENT: Duration = Duration::from_millis(200);
/// After a fault.
const PAUSE: Duration = Duration::from_millis(50);

impl Listener {
    /// Of a port 0 it is a free one.
    pub fn tcp(address: SocketAddr) -> io::Result<Listener> {
        TcpListener::bind(address).map(Listener::Tcp)
    }

    /// A socket that nobody listens on any more is taken away. Anything else that has the name stays, and is a fault.
    pub fn unix(path: &Path) -> io::Result<Listener> {
        let is_socket = fs::symlink_metadata(path).is_ok_and(|it| it.file_type().is_socket());
        if is_socket && UnixStream::connect(path).is_err() {
            fs::remove_file(path)?;
        }
        UnixListener::bind(path).map(Listener::Unix)
    }

    /// Where it listens.
    pub fn place(&self) -> io::Result<String> {
        Ok(match self {
            Listener::Tcp(listener) => listener.local_addr()?.to_string(),
            Listener::Unix(listener) => {
                listener.local_addr()?.as_pathname().map_or(String::new(), |path| path.display().to_string())
            }
        })
    }

    fn next(&self) -> io::Result<Box<dyn Socket>> {
        Ok(match self {
            Listener::Tcp(listener) => {
                let client = listener.accept()?.0;
                // Replies go at once.
                client.set_nodelay(true).and(client.set_nonblocking(true))?;
                Box::new(mio::net::TcpStream::from_std(client))
            }
            Listener::Unix(listener) => {
                let client = listener.accept()?.0;
                client.set_nonblocking(true)?;
                Box::new(mio::net::UnixStream::from_std(client))
            }
        })
    }

    /// Lets in who comes, while the process is there.
    pub fn run(&self, door: &Door, refuse: impl Fn(&Refusal)) {
        loop {
            let Err(refusal) = self.next().map_err(Refusal::Fault).and_then(|client| door.enter(client)) else {
                continue;
            };
            refuse(&refusal);
            if let Refusal::Fault(_) = refusal {
                thread::sleep(PAUSE);
            }
        }
    }
}

/// Where clients come in to the workers.
pub struct Door {
    most: usize,
    inside: Mutex<Inside>,
    has_left: Condvar,
}

#[derive(Default)]
struct Inside {
    /// How many have come, since the begin.
    came: usize,
    workers: Vec<Arc<Mailbox>>,
}

impl Inside {
    fn count(&self) -> usize {
        self.workers.iter().map(|worker| worker.clients()).sum()
    }
}

impl Door {
    /// With room for so many.
    pub fn new(clients: usize) -> Door {
        Door { most: clients, inside: Mutex::default(), has_left: Condvar::new() }
    }

    /// From now on clients come to this worker too.
    pub fn leads_to(&self, worker: Arc<Mailbox>) {
        self.inside().workers.push(worker);
    }

    /// How many are here.
    pub fn count(&self) -> usize {
        self.inside().count()
    }

    fn inside(&self) -> MutexGuard<'_, Inside> {
        self.inside.lock().unwrap_or_else(PoisonError::into_inner)
    }

    /// To the worker who has the fewest.
    pub fn enter(&self, mut client: Box<dyn Socket>) -> Result<(), Refusal> {
        let mut inside = self.inside();
        let worker = inside.workers.iter().min_by_key(|worker| worker.clients()).cloned();
        let Some(worker) = worker.filter(|_| inside.count() < self.most) else {
            drop(inside);
            // Nothing was sent before, so that there is room for it.
            _ = client.write_all(NO_ROOM);
            return Err(Refusal::NoRoom);
        };
        inside.came += 1;
        worker.comes(inside.came, client);
        Ok(())
    }

    pub fn leave(&self, worker: &Mailbox) {
        let _inside = self.inside();
        worker.has_left();
        self.has_left.notify_all();
    }

    /// Who has a command under way has its reply, or an error after so long; nobody is heard any more. Waits for them.
    pub fn shut(&self, grace: Duration) {
        let end = Instant::now() + grace;
        let mut inside = self.inside();
        inside.workers.iter().for_each(|worker| worker.put(Mail::Ends(end)));
        let end = end + MOMENT;
        while inside.count() > 0 && Instant::now() < end {
            let left = end.saturating_duration_since(Instant::now());
            inside = self.has_left.wait_timeout(inside, left).unwrap_or_else(PoisonError::into_inner).0;
        }
    }
}

#[cfg(test)]
mod tests {
    use super::*;
    use crate::event_loop::tests::{door, works_at};
    use std::io::{BufRead, BufReader, Write};
    use std::{env, process, sync::mpsc};

    fn line(client: &mut impl BufRead) -> String {
        let mut line = String::new();
        client.read_line(&mut line).unwrap();
        line
    }

    /// Where a door with so much room stands, which tells whom it refuses.
    fn opened(clients: usize) -> (String, &'static Door, mpsc::Receiver<()>) {
        let listener = Listener::tcp(([127, 0, 0, 1], 0).into()).unwrap();
        let (place, door) = (listener.place().unwrap(), door(clients));
        let (refuse, refused) = mpsc::channel();
        works_at(door);
        thread::spawn(move || listener.run(door, |_| refuse.send(()).unwrap()));
        (place, door, refused)
    }

    fn comes(place: &str) -> BufReader<std::net::TcpStream> {
        let client = std::net::TcpStream::connect(place).unwrap();
        // Only against hanging for ever.
        client.set_read_timeout(Some(Duration::from_secs(30))).unwrap();
        BufReader::new(client)
    }

    #[test]
    fn who_finds_no_room_is_told() {
        let (place, _, refused) = opened(1);
        let mut first = comes(&place);
        first.get_mut().write_all(b"a\n").unwrap();
        assert_eq!(line(&mut first), "Ok([\"a\"])\n");
        assert_eq!(line(&mut comes(&place)).as_bytes(), NO_ROOM);
        refused.recv().unwrap();
        drop(first);
        // Its place is the next one's.
        let is_served = |client: &mut BufReader<std::net::TcpStream>| {
            client.get_mut().write_all(b"b\n").is_ok() && client.fill_buf().is_ok_and(|bytes| bytes.starts_with(b"Ok"))
        };
        assert!((0..100_000).any(|_| is_served(&mut comes(&place))));
    }

    #[test]
    fn a_door_that_is_shut_waits_for_its_clients() {
        let (place, door, _refused) = opened(4);
        let mut client = comes(&place);
        client.get_mut().write_all(b"a\n").unwrap();
        assert_eq!(line(&mut client), "Ok([\"a\"])\n");
        let shuts = thread::spawn(|| door.shut(Duration::from_secs(3600)));
        assert_eq!(line(&mut client), "");
        shuts.join().unwrap();
        assert_eq!(door.count(), 0);
    }

    #[test]
    fn a_socket_that_nobody_listens_on_is_taken_away() {
        let path = env::temp_dir().join(format!("listener-{}", process::id()));
        let first = Listener::unix(&path).unwrap();
        assert_eq!(first.place().unwrap(), path.display().to_string());
        assert!(Listener::unix(&path).is_err(), "who listens there stays");
        drop(first);
        drop(Listener::unix(&path).unwrap());
        fs::remove_file(&path).unwrap();
        fs::write(&path, "a file").unwrap();
        assert!(Listener::unix(&path).is_err());
        assert_eq!(fs::read_to_string(&path).unwrap(), "a file");
        fs::remove_file(&path).unwrap();
    }
}
