//! How a map of values ends.
use super::boxed::Boxed;
use crate::drops::drop_each;
use crate::{Reader, Rows, Writer};
use std::iter;
use std::marker::PhantomData;
use std::sync::{Mutex, MutexGuard, PoisonError, RwLock};

/// What the tokens of a map of values have in common: where they leave what they are made of, so that the last of them
/// takes the map apart.
pub(super) struct End<V> {
    left: Mutex<Left>,
    /// Its values go between threads, and are of one lifetime, as those of a lock that many may read.
    values: PhantomData<RwLock<V>>,
}

struct Left {
    writer: Option<Writer>,
    readers: Vec<Reader>,
}

impl<V> End<V> {
    pub fn new() -> End<V> {
        End { left: Mutex::new(Left { writer: None, readers: Vec::new() }), values: PhantomData }
    }

    pub fn leave_writer(&self, writer: Writer) {
        self.left().writer = Some(writer);
    }

    pub fn leave_reader(&self, mut reader: Reader) {
        reader.let_go();
        self.left().readers.push(reader);
    }

    pub fn take_reader(&self) -> Option<Reader> {
        self.left().readers.pop()
    }

    fn left(&self) -> MutexGuard<'_, Left> {
        self.left.lock().unwrap_or_else(PoisonError::into_inner)
    }
}

impl<V> Drop for End<V> {
    /// Drops each value that is still in the map.
    fn drop(&mut self) {
        let left = self.left.get_mut().unwrap_or_else(PoisonError::into_inner);
        let Some(mut writer) = left.writer.take() else { return };
        for reader in left.readers.drain(..) {
            // Where there is no memory for this the values stay where they are, and nobody frees them.
            if writer.return_reader(reader).is_err() {
                return;
            }
        }
        let Ok(mut remains) = writer.take_apart() else { return };
        let mut room = Rows::new();
        // SAFETY: the set is of a map of such values, and came back.
        let next = || remains.next_into(&mut room).map(|rows| unsafe { Boxed::<V>::came_back(rows) });
        drop_each(iter::from_fn(next));
    }
}
