//! A map whose keys have values of any type, which readers borrow in place.
mod boxed;
mod end;
mod reader;
mod writer;

pub use reader::{ValueReader, ValueRef};
pub use writer::{UnfilledValue, UnreplacedValue, ValueWriter};

use crate::{Fault, ReaderMap, Shape};
use end::End;
use std::fmt;
use std::sync::Arc;

/// A map in which a filled key has a value in place of rows, as a `Vec<u8>`, an `Arc` or any other type. Its tokens as
/// they come. A find copies nothing and counts nothing of its own: it borrows the value for as long as the reader holds
/// the key's set. Each value that was put is dropped once, by the writer when no reader holds it and none can find it,
/// or with the last of the tokens.
///
/// Threads share a map of values that are `Send` and `Sync`.
///
/// ```
/// use nr::{Asked, ValueMap};
///
/// let ValueMap { mut writer, mut readers } = ValueMap::open(2, 5, 2)?;
/// let [one, two] = &mut readers[..] else { panic!() };
/// let Asked::Send(ticket) = one.ask(0) else { panic!() };
/// writer.fill(ticket, b"a text".to_vec())?;
///
/// let text = one.find(0).expect("the key is filled");
/// writer.replace(0, b"a longer text".to_vec())?;
/// assert_eq!(*text, b"a text");
/// assert_eq!(*two.find(0).expect("the key is filled"), b"a longer text");
/// # Ok::<(), Box<dyn std::error::Error>>(())
/// ```
pub struct ValueMap<V> {
    /// The one that fills, replaces and evicts.
    pub writer: ValueWriter<V>,
    /// Those that look keys up, each for a thread of its own.
    pub readers: Vec<ValueReader<V>>,
}

impl<V> ValueMap<V> {
    /// Opens a map of that many keys, slots and readers, within the limits of a [`Shape`]: every key is a hole. With a
    /// slot for each key, each reader and one more no fill or replacement is refused for want of one. Refused with
    /// [`Fault::BadSize`], [`Fault::NoMemory`] or [`Fault::OtherLibrary`].
    pub fn open(keys: u32, slots: u32, readers: u32) -> Result<ValueMap<V>, Fault> {
        let shape = Shape { rows: 1, ..Shape::new(keys, slots, readers) };
        let ReaderMap { writer, readers } = ReaderMap::open(&shape)?;
        let end = Arc::new(End::new());
        let readers = readers.into_iter().map(|reader| ValueReader::of(reader, Arc::clone(&end))).collect();
        Ok(ValueMap { writer: ValueWriter::of(writer, end), readers })
    }
}

impl<V> fmt::Debug for ValueMap<V> {
    fn fmt(&self, f: &mut fmt::Formatter<'_>) -> fmt::Result {
        f.debug_struct("ValueMap").field("writer", &self.writer).field("readers", &self.readers).finish()
    }
}
