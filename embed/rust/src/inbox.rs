//! Tickets and events that come to one thread, which sleeps while there are none.
use crate::{Fault, Poster, Queue, Taker, Ticket, Writer};
use std::sync::atomic::{AtomicBool, Ordering::SeqCst};
use std::sync::mpsc::{self, TryRecvError};
use std::sync::{Arc, Weak};
use std::{fmt, thread};

/// An inbox's tokens as they come: what the writer's thread takes with, what as many threads post tickets of missing keys
/// with, and what any number send events with, of a type of the program's own, such as the changes of a base.
///
/// ```
/// use nr::{Arrival, Asked, Inbox, ReaderMap, Shape};
///
/// let ReaderMap { mut writer, mut readers } = ReaderMap::open(&Shape::new(1, 3, 1))?;
/// let Inbox { mut taker, mut posters, events } = Inbox::open(&writer, 1, 1)?;
/// std::thread::scope(|scope| {
///     scope.spawn(move || {
///         let Asked::Send(ticket) = readers[0].ask(0) else { panic!() };
///         posters[0].post_waiting(ticket);
///     });
///     scope.spawn(move || events.send("an event"));
///     let mut came = 0;
///     while let Some(arrival) = taker.wait() {
///         match arrival {
///             Arrival::Ticket(ticket) => writer.fill(ticket, &[]).expect("there is a slot"),
///             Arrival::Event(event) => assert_eq!(event, "an event"),
///         }
///         came += 1;
///     }
///     assert_eq!(came, 2);
/// });
/// # Ok::<(), nr::Fault>(())
/// ```
#[derive(Debug)]
pub struct Inbox<E> {
    /// The one that takes.
    pub taker: InboxTaker<E>,
    /// Those that post tickets, each for a thread of its own.
    pub posters: Vec<InboxPoster<E>>,
    /// What sends events. Each thread has a clone.
    pub events: EventSender<E>,
}

impl<E> Inbox<E> {
    /// Opens an inbox for 1 to 4,194,303 tickets of the writer's map, with 1 to 65,535 posters, as [`Queue::open`] does;
    /// of events there may be any number. Refused with [`Fault::BadSize`] or [`Fault::NoMemory`].
    pub fn open(writer: &Writer, capacity: u32, posters: u32) -> Result<Inbox<E>, Fault> {
        let Queue { taker, posters } = Queue::open(writer, capacity, posters)?;
        let (letters, came) = mpsc::channel();
        let (letters, bell) = (Arc::new(letters), Arc::new(AtomicBool::new(false)));
        let poster = |poster| InboxPoster { poster, letters: Arc::clone(&letters), bell: Arc::clone(&bell) };
        let posters = posters.into_iter().map(poster).collect();
        let senders = Arc::downgrade(&letters);
        let taker = InboxTaker { taker, came, senders, bell, with_tickets: None, is_tickets_turn: false };
        Ok(Inbox { taker, posters, events: EventSender { letters } })
    }
}

/// What comes to an inbox.
#[derive(Debug, PartialEq, Eq)]
#[must_use = "a ticket is to be filled, or given to `Writer::cancel_ticket`"]
pub enum Arrival<E> {
    /// A key is asked for.
    Ticket(Ticket),
    /// An event.
    Event(E),
}

/// What the writer's thread takes with. It takes tickets and events in turn, so that neither waits for the other to end,
/// and sleeps without either.
pub struct InboxTaker<E> {
    taker: Taker,
    came: mpsc::Receiver<Letter<E>>,
    senders: Weak<mpsc::Sender<Letter<E>>>,
    bell: Arc<AtomicBool>,
    /// There may be tickets, as long as this is there, and whether they come next.
    with_tickets: Option<Letters<E>>,
    is_tickets_turn: bool,
}

/// What all that post and send share. The inbox is open while there is one.
type Letters<E> = Arc<mpsc::Sender<Letter<E>>>;

/// The bell is in the channel of the events, so that one sleep waits for both. It keeps the inbox open until the tickets
/// are taken, so that what loads them can send events.
enum Letter<E> {
    Bell(Letters<E>),
    Event(E),
}

impl<E> InboxTaker<E> {
    /// Waits for the next ticket or event; none when all that post and send are gone.
    pub fn wait(&mut self) -> Option<Arrival<E>> {
        loop {
            self.is_tickets_turn = !self.is_tickets_turn && self.with_tickets.is_some();
            let came = if self.is_tickets_turn { self.ticket() } else { self.event()? };
            if came.is_some() {
                return came;
            }
        }
    }

    /// What can send events for as long as anything can that was made with the inbox.
    pub(crate) fn weak_sender(&self) -> WeakSender<E> {
        WeakSender { letters: Weak::clone(&self.senders) }
    }

    fn ticket(&mut self) -> Option<Arrival<E>> {
        match self.taker.take() {
            Ok(ticket) => return Some(Arrival::Ticket(ticket)),
            Err(Fault::InTheWay) => thread::yield_now(),
            Err(_) => self.with_tickets = None,
        }
        None
    }

    /// Sleeps where there are no tickets either.
    fn event(&mut self) -> Option<Option<Arrival<E>>> {
        let letter = match self.came.try_recv() {
            Ok(letter) => letter,
            Err(_) if self.with_tickets.is_some() => return Some(None),
            Err(TryRecvError::Disconnected) => return None,
            Err(TryRecvError::Empty) => self.came.recv().ok()?,
        };
        match letter {
            Letter::Event(event) => Some(Some(Arrival::Event(event))),
            Letter::Bell(letters) => {
                // Before the look: a ticket that comes after it rings again.
                self.bell.store(false, SeqCst);
                self.with_tickets = Some(letters);
                Some(None)
            }
        }
    }
}

/// What one thread posts tickets with.
pub struct InboxPoster<E> {
    poster: Poster,
    letters: Letters<E>,
    bell: Arc<AtomicBool>,
}

impl<E> InboxPoster<E> {
    /// Posts a ticket, and lets other threads go on until it is there. Where the taker is gone, nobody takes it. Panics
    /// where the ticket is another map's.
    pub fn post_waiting(&mut self, ticket: Ticket) {
        self.poster.post_waiting(ticket);
        if !self.bell.swap(true, SeqCst) {
            _ = self.letters.send(Letter::Bell(Arc::clone(&self.letters)));
        }
    }
}

/// What threads send events with, each with a clone.
pub struct EventSender<E> {
    letters: Letters<E>,
}

impl<E> EventSender<E> {
    /// Sends an event; it comes back where the taker is gone.
    pub fn send(&self, event: E) -> Result<(), E> {
        self.letters.send(Letter::Event(event)).map_err(|mpsc::SendError(letter)| match letter {
            Letter::Event(event) => event,
            Letter::Bell(_) => unreachable!("an event was sent"),
        })
    }
}

/// What makes an event's sender while there is another, and keeps no inbox open.
pub(crate) struct WeakSender<E> {
    letters: Weak<mpsc::Sender<Letter<E>>>,
}

impl<E> WeakSender<E> {
    pub(crate) fn sender(&self) -> Option<EventSender<E>> {
        self.letters.upgrade().map(|letters| EventSender { letters })
    }
}

impl<E> Clone for EventSender<E> {
    fn clone(&self) -> EventSender<E> {
        EventSender { letters: Arc::clone(&self.letters) }
    }
}

impl<E> fmt::Debug for InboxTaker<E> {
    fn fmt(&self, f: &mut fmt::Formatter<'_>) -> fmt::Result {
        f.debug_struct("InboxTaker").field("taker", &self.taker).finish_non_exhaustive()
    }
}

impl<E> fmt::Debug for InboxPoster<E> {
    fn fmt(&self, f: &mut fmt::Formatter<'_>) -> fmt::Result {
        f.debug_struct("InboxPoster").field("poster", &self.poster).finish_non_exhaustive()
    }
}

impl<E> fmt::Debug for EventSender<E> {
    fn fmt(&self, f: &mut fmt::Formatter<'_>) -> fmt::Result {
        f.debug_struct("EventSender").finish_non_exhaustive()
    }
}
