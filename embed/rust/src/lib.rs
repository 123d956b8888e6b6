//! A cache in front of slow queries, and the reader map on which it stands: many readers look keys up without a lock, each
//! in a thread of its own, while one writer fills, updates and evicts them. What each call of the library below does is
//! proved; that this wrapper keeps what the library's header asks rests on Rust's borrow rules and on reading it.
//!
//! ```
//! use nr::Cache;
//!
//! # fn query(user: &str) -> std::io::Result<String> {
//! #     Ok(format!("what the base has of {user}"))
//! # }
//! let cache: Cache<String, String> = Cache::builder().capacity(10_000).open()?;
//! // Another thread that misses her meanwhile waits for this query.
//! assert_eq!(cache.try_get_with("alice", || query("alice"))?, "what the base has of alice");
//! // After a write to the database: what was queried before is not kept.
//! cache.invalidate("alice");
//! assert_eq!(cache.get("alice"), None);
//! # Ok::<(), Box<dyn std::error::Error>>(())
//! ```
//!
//! A [`CacheReader`] borrows values in place of clones. Values change with their base by a [`Change`], and a [`View`] is a
//! cache of rows that do. The map itself has a queue that brings the requests of missing keys to its writer:
//!
//! ```
//! use nr::{Asked, Queue, ReaderMap, Row, Rows, Shape};
//!
//! let ReaderMap { mut writer, mut readers } = ReaderMap::open(&Shape::new(2, 4, 1))?;
//! let Queue { mut taker, mut posters } = Queue::open(&writer, 2, 1)?;
//! let mut rows = Rows::new();
//! assert!(readers[0].find(0, &mut rows).is_none());
//! let Asked::Send(ticket) = readers[0].ask(0) else { panic!() };
//! posters[0].post(ticket).expect("the queue has room");
//! let ticket = taker.take().expect("a ticket was posted");
//! writer.fill(ticket, &[Row { a: 3, b: 9 }, Row { a: 7, b: 1 }])?;
//! assert_eq!(readers[0].find(0, &mut rows), Some(&[Row { a: 3, b: 9 }, Row { a: 7, b: 1 }][..]));
//!
//! let mut pin = readers[0].pin(0).expect("the key is filled");
//! writer.evict(0);
//! assert_eq!(pin.row(1), Some(Row { a: 7, b: 1 }));
//! # Ok::<(), Box<dyn std::error::Error>>(())
//! ```
//!
//! Where there is no slot a fill gives its ticket back, which fills the key later. A request that nobody fills is taken
//! back by its ticket, or by its key where the ticket was lost:
//!
//! ```
//! # use nr::{Asked, Cancel, Fault, ReaderMap, Row, Shape, Unfilled};
//! let ReaderMap { mut writer, mut readers } = ReaderMap::open(&Shape::new(2, 1, 1))?;
//! let [Asked::Send(one), Asked::Send(two)] = [0, 1].map(|key| readers[0].ask(key)) else { panic!() };
//! writer.fill(one, &[])?;
//! let Err(Unfilled { fault: Fault::AllFilled, ticket: two }) = writer.fill(two, &[]) else { panic!() };
//! writer.evict(0);
//! writer.fill(two, &[])?;
//!
//! let Asked::Send(one) = readers[0].ask(0) else { panic!() };
//! writer.cancel_ticket(one).expect("it has not the last number");
//! drop(readers[0].ask(0));
//! assert_eq!(readers[0].ask(0), Asked::Waiting);
//! assert_eq!(writer.cancel(0), Cancel::Cancelled);
//! assert!(matches!(readers[0].ask(0), Asked::Send(_)));
//! # Ok::<(), Box<dyn std::error::Error>>(())
//! ```
//!
//! A call of the writer that returned is seen by each find that begins after a message about it came, by whatever
//! orders memory: a channel, a lock, a join, or a release and an acquire of an atomic. Such a find gives the rows of that
//! write or of a later one, and none only where the key was evicted since.
//!
//! Keys of a [`ValueMap`] have values of any type in place of rows, which readers borrow. A [`Lobby`] lists who waits for a
//! missing key, and who waits until the writer has come as far as a number. An [`Inbox`] brings one sleeping thread both
//! tickets and events, and [`Loaders`] query side by side for it. Tokens go from thread to thread, but two threads never use one at a time:
//!
//! ```compile_fail,E0277
//! let readers = nr::ReaderMap::open(&nr::Shape::new(1, 3, 1)).unwrap().readers;
//! std::thread::scope(|scope| {
//!     scope.spawn(|| readers.len());
//! });
//! ```
//!
//! and a reader has one pin at a time, which borrows it:
//!
//! ```compile_fail,E0499
//! let mut readers = nr::ReaderMap::open(&nr::Shape::new(1, 3, 1)).unwrap().readers;
//! let pin = readers[0].pin(0);
//! let _ = readers[0].ask(0);
//! drop(pin);
//! ```
//!
//! A value is borrowed no longer than its guard is there, by one guard of a reader at a time, and goes to other threads
//! where its type does:
//!
//! ```compile_fail,E0505
//! fn late(mut reader: nr::ValueReader<String>) {
//!     let found = reader.find(0).unwrap();
//!     let text: &str = &found;
//!     drop(found);
//!     println!("{text}");
//! }
//! ```
//!
//! ```compile_fail,E0499
//! fn two(mut reader: nr::ValueReader<String>) {
//!     let one = reader.find_kept(0);
//!     let _ = reader.find(1);
//!     drop(one);
//! }
//! ```
//!
//! ```compile_fail,E0277
//! fn elsewhere(mut reader: nr::ValueReader<std::rc::Rc<u8>>) {
//!     std::thread::spawn(move || reader.let_go());
//! }
//! ```
//!
//! A ticket is made by a request alone, and there is one of it:
//!
//! ```compile_fail,E0451
//! fn forged(ticket: nr::Ticket) -> nr::Ticket {
//!     nr::Ticket { key: 1, ..ticket }
//! }
//! ```
//!
//! ```compile_fail,E0599
//! fn twice(ticket: nr::Ticket) -> [nr::Ticket; 2] {
//!     [ticket.clone(), ticket]
//! }
//! ```
//!
//! ```compile_fail,E0382
//! fn twice(writer: &mut nr::Writer, ticket: nr::Ticket) {
//!     let _ = (writer.fill(ticket, &[]), writer.fill(ticket, &[]));
//! }
//! ```

mod answers;
mod cache;
mod drops;
mod emptied;
mod ends;
mod ffi;
mod ids;
mod inbox;
mod library;
mod loaders;
mod lobby;
mod map;
mod net;
mod progress;
mod queue;
mod reader;
mod reclaiming;
mod rows;
mod shared_queue;
#[cfg(test)]
mod tests;
mod ticket;
mod values;
mod writer;

pub use answers::{Asked, Cancel, Fault, KeyKind, Updated};
pub use cache::{Cache, CacheBuilder, CacheReader, CacheRef, CacheStats, Change, LoadError, Loaded};
pub use cache::{NotInserted, RemovalCause, Request, Sought, View, Wait, WaitError};
pub use emptied::Emptied;
pub use inbox::{Arrival, EventSender, Inbox, InboxPoster, InboxTaker};
pub use loaders::Loaders;
pub use lobby::Lobby;
pub use map::ReaderMap;
pub use progress::Progress;
pub use queue::{Poster, Queue, Taker};
pub use reader::{Keeping, Pin, Reader};
pub use reclaiming::{Reaped, Reclaimed, Remains};
pub use rows::{Delta, Found, Row, Rows, Shape, Sizes, SlotCounts, Wanted};
pub use shared_queue::{SharedPoster, SharedQueue, SharedTaker};
pub use ticket::{Ticket, Unfilled, Unposted};
pub use values::{UnfilledValue, UnreplacedValue, ValueMap, ValueReader, ValueRef, ValueWriter};
pub use writer::Writer;
