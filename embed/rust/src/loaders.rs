//! Threads that load the rows of missing keys, so that no query holds up the thread that writes.
use crate::inbox::{EventSender, InboxTaker, WeakSender};
use crate::Ticket;
use std::sync::{mpsc, Arc, Mutex, PoisonError};
use std::{fmt, thread};

/// Threads that query side by side for the thread that writes. It gives them the tickets of its inbox, in whose order they
/// begin; what each query came to goes back to the inbox as an event, with the ticket, in any order.
///
/// ```
/// use nr::{Arrival, Asked, Inbox, Loaders, ReaderMap, Row, Rows, Shape, Ticket};
///
/// let ReaderMap { mut writer, mut readers } = ReaderMap::open(&Shape::new(2, 4, 1))?;
/// let Inbox { mut taker, mut posters, events } = Inbox::open(&writer, 2, 1)?;
/// let query = |ticket: Ticket| {
///     let rows = [Row { a: u64::from(ticket.key()), b: 9 }];
///     (ticket, Some(rows))
/// };
/// let loaders = Loaders::start(&taker, [query, query]);
/// for key in [0, 1] {
///     let Asked::Send(ticket) = readers[0].ask(key) else { panic!() };
///     posters[0].post_waiting(ticket);
/// }
/// drop((posters, events));
/// while let Some(arrival) = taker.wait() {
///     match arrival {
///         Arrival::Ticket(ticket) => loaders.give(ticket).expect("there are loaders"),
///         Arrival::Event((ticket, Some(rows))) => writer.fill(ticket, &rows).expect("there is a slot"),
///         Arrival::Event((ticket, None)) => drop(writer.cancel_ticket(ticket)),
///     }
/// }
/// let mut rows = Rows::new();
/// assert_eq!(readers[0].find(1, &mut rows), Some(&[Row { a: 1, b: 9 }][..]));
/// # Ok::<(), nr::Fault>(())
/// ```
pub struct Loaders<E> {
    loads: mpsc::Sender<Load<E>>,
    events: WeakSender<E>,
}

/// A ticket with what sends its rows. So the inbox stays open while a load is under way.
struct Load<E> {
    ticket: Ticket,
    events: EventSender<E>,
}

/// The loads that no thread has begun.
type Waiting<E> = Arc<Mutex<mpsc::Receiver<Load<E>>>>;

impl<E: Send + 'static> Loaders<E> {
    /// Starts a thread for each query, such as one with a connection of its own. It is given a ticket and makes the inbox's
    /// event of that. A thread ends once the loaders are dropped and no load waits, or when its query panics: the ticket is
    /// lost then, and its key stays asked for until [`Writer::cancel`](crate::Writer::cancel).
    pub fn start<Q>(taker: &InboxTaker<E>, queries: impl IntoIterator<Item = Q>) -> Loaders<E>
    where
        Q: FnMut(Ticket) -> E + Send + 'static,
    {
        let (loads, waiting) = mpsc::channel();
        let waiting = Arc::new(Mutex::new(waiting));
        for query in queries {
            let waiting = Arc::clone(&waiting);
            thread::spawn(move || load_all(&waiting, query));
        }
        Loaders { loads, events: taker.weak_sender() }
    }

    /// Has a ticket's rows loaded, and returns at once. The ticket comes back where every thread has ended; and a ticket that
    /// was taken earlier, where all that post to the inbox and send it events are gone and nothing is under way.
    pub fn give(&self, ticket: Ticket) -> Result<(), Ticket> {
        let Some(events) = self.events.sender() else { return Err(ticket) };
        self.loads.send(Load { ticket, events }).map_err(|mpsc::SendError(load)| load.ticket)
    }
}

/// An event that comes back from a closed inbox is dropped.
fn load_all<E>(waiting: &Waiting<E>, mut query: impl FnMut(Ticket) -> E) {
    while let Some(Load { ticket, events }) = next_load(waiting) {
        _ = events.send(query(ticket));
    }
}

/// The lock is given up before the query begins.
fn next_load<E>(waiting: &Waiting<E>) -> Option<Load<E>> {
    waiting.lock().unwrap_or_else(PoisonError::into_inner).recv().ok()
}

impl<E> fmt::Debug for Loaders<E> {
    fn fmt(&self, f: &mut fmt::Formatter<'_>) -> fmt::Result {
        f.debug_struct("Loaders").finish_non_exhaustive()
    }
}
