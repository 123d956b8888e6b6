//! How a process is told to end, and what systemd is told of it.
use std::ffi::c_int;
use std::io::{self, Read};
use std::os::fd::{AsRawFd, RawFd};
use std::os::linux::net::SocketAddrExt;
use std::os::unix::net::{SocketAddr, UnixDatagram, UnixStream};
use std::sync::atomic::{AtomicI32, Ordering::SeqCst};
use std::{env, ffi::c_void};

extern "C" {
    fn signal(number: c_int, handler: extern "C" fn(c_int)) -> usize;
    fn write(file: c_int, bytes: *const c_void, count: usize) -> isize;
}

static TOLD: AtomicI32 = AtomicI32::new(-1);
const INTERRUPT: c_int = 2;
const TERMINATE: c_int = 15;

extern "C" fn tell(_signal: c_int) {
    // SAFETY: a handler of signals may call it, with a byte that is there; of a number that is no file it tells an
    // error.
    unsafe { write(TOLD.load(SeqCst), [0u8].as_ptr().cast(), 1) };
}

/// Something that comes to its end when the process is told to.
pub struct Ending {
    heard: UnixStream,
    _told: UnixStream,
}

/// Can be read from where the process is told to end.
impl AsRawFd for Ending {
    fn as_raw_fd(&self) -> RawFd {
        self.heard.as_raw_fd()
    }
}

impl Ending {
    pub fn new() -> io::Result<Ending> {
        let (heard, told) = UnixStream::pair()?;
        TOLD.store(told.as_raw_fd(), SeqCst);
        // SAFETY: the handler makes nothing but an atomic load and a call that it may make.
        [INTERRUPT, TERMINATE].iter().for_each(|number| _ = unsafe { signal(*number, tell) });
        Ok(Ending { heard, _told: told })
    }

    pub fn wait(&self) {
        // Where it can't be waited for there is nothing to wait for.
        _ = (&self.heard).read_exact(&mut [0]);
    }
}

/// Tells systemd, where it has started the process and wants to know.
pub fn notify(state: &str) -> io::Result<()> {
    let Ok(place) = env::var("NOTIFY_SOCKET") else { return Ok(()) };
    let address = match place.strip_prefix('@') {
        Some(name) => SocketAddr::from_abstract_name(name),
        None => SocketAddr::from_pathname(place),
    };
    UnixDatagram::unbound()?.send_to_addr(state.as_bytes(), &address?).map(drop)
}
