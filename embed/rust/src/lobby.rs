//! Who waits for missing keys.
use crate::map::Map;
use crate::{Asked, Progress, Reader, Writer};
use std::collections::HashMap;
use std::sync::{Mutex, MutexGuard, PoisonError};
use std::{fmt, iter};

/// How many locks the keys share.
const GROUPS: u32 = 64;

/// Who waits for the missing keys of a map: a list for each key of what wakes those who wait, as senders of a channel,
/// threads or a task's wakers. Nobody waits in vain where each thread keeps this order:
///
/// - a reader that finds a hole calls [`Lobby::ask`], posts the ticket if there is one, and only then sleeps;
/// - the writer's thread fills the key, or cancels its request, and then calls [`Lobby::take`] and wakes the list.
///
/// A find takes no lock; these two calls take that of the key's group, one of 64. Who waits for a change, and not for a
/// key, waits for the lobby's [`Progress`].
///
/// ```
/// use nr::{Asked, Lobby, Queue, ReaderMap, Row, Rows, Shape};
/// use std::{sync::mpsc, thread};
///
/// let ReaderMap { mut writer, mut readers } = ReaderMap::open(&Shape::new(1, 3, 1))?;
/// let Queue { mut taker, mut posters } = Queue::open(&writer, 1, 1)?;
/// let lobby: Lobby<mpsc::Sender<()>> = Lobby::of(&writer);
/// let dataflow = thread::current();
/// thread::scope(|scope| {
///     scope.spawn(|| {
///         let mut rows = Rows::new();
///         while readers[0].find(0, &mut rows).is_none() {
///             let (wake, woken) = mpsc::channel();
///             match lobby.ask(&mut readers[0], 0, wake) {
///                 Asked::Send(ticket) => posters[0].post_waiting(ticket),
///                 Asked::Waiting => {}
///                 Asked::Filled => continue,
///                 Asked::Closed => panic!("the dataflow is gone"),
///             }
///             dataflow.unpark();
///             woken.recv().expect("the dataflow wakes it");
///         }
///         assert_eq!(rows.as_slice(), [Row { a: 3, b: 9 }]);
///     });
///     let ticket = loop {
///         match taker.take() {
///             Ok(ticket) => break ticket,
///             Err(_) => thread::park(),
///         }
///     };
///     let key = ticket.key();
///     writer.fill(ticket, &[Row { a: 3, b: 9 }]).expect("there is a slot");
///     lobby.take(key).iter().for_each(|wake| wake.send(()).expect("it waits"));
/// });
/// # Ok::<(), nr::Fault>(())
/// ```
pub struct Lobby<W> {
    map: Map,
    groups: Box<[Group<W>]>,
    progress: Progress,
}

/// The lists of the keys whose numbers are alike modulo [`GROUPS`], in a line of the cache of their own.
#[repr(align(64))]
struct Group<W>(Mutex<HashMap<u32, Vec<W>>>);

impl<W> Group<W> {
    /// The lists are whole also where a thread panicked that had them.
    fn lists(&self) -> MutexGuard<'_, HashMap<u32, Vec<W>>> {
        self.0.lock().unwrap_or_else(PoisonError::into_inner)
    }
}

impl<W> Lobby<W> {
    /// A lobby for the readers of the writer's map, in which nobody waits.
    pub fn of(writer: &Writer) -> Lobby<W> {
        let groups = iter::repeat_with(|| Group(Mutex::default())).take(GROUPS as usize).collect();
        Lobby { map: writer.map, groups, progress: Progress::new() }
    }

    /// Requests a key, and puts the waiter on its list, unless the key is filled: then the waiter is dropped, and the
    /// key is there to be found. It is dropped too once the writer is gone. Panics where the reader is of another map, or the map has no such key.
    pub fn ask(&self, reader: &mut Reader, key: u32, waiter: W) -> Asked {
        self.map.is_of(&reader.map);
        let mut lists = self.group(key).lists();
        let asked = reader.ask(key);
        if matches!(asked, Asked::Send(_) | Asked::Waiting) {
            lists.entry(key).or_default().push(waiter);
        }
        asked
    }

    /// Takes the list of a key, in the order of its requests. Called after a fill or a cancel, it has each waiter whose
    /// request came before that. Panics where the map has no such key.
    #[must_use = "those who wait are to be woken"]
    pub fn take(&self, key: u32) -> Vec<W> {
        self.group(key).lists().remove(&key).unwrap_or_default()
    }

    /// Whether somebody waits for a key. Panics where the map has no such key.
    pub fn is_awaited(&self, key: u32) -> bool {
        self.group(key).lists().contains_key(&key)
    }

    /// How far the writer's thread has come, as it tells: who waits for a change, and not for a key, waits here.
    pub fn progress(&self) -> &Progress {
        &self.progress
    }

    fn group(&self, key: u32) -> &Group<W> {
        &self.groups[(self.map.checked(key) % GROUPS) as usize]
    }
}

impl<W> fmt::Debug for Lobby<W> {
    fn fmt(&self, f: &mut fmt::Formatter<'_>) -> fmt::Result {
        f.debug_struct("Lobby").field("map", &self.map).finish_non_exhaustive()
    }
}
