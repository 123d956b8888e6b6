//! What a reader has of a cache.
use super::entry::Entry;
use super::hold::Hold;
use super::store::{place_of, Place};
use crate::ids::IdReader;

/// A key's id, and the number of its part.
#[derive(Clone, Copy)]
pub(super) struct At {
    pub id: u64,
    pub part: usize,
}

pub(super) struct Desk {
    /// A reader of each part's map.
    pub ids: Box<[IdReader]>,
    /// The part in which it found last, and the only one in which it may still hold what was borrowed and forgotten.
    last: usize,
    /// That of what it counts.
    pub number: usize,
}

impl Desk {
    pub fn new(ids: Vec<IdReader>, number: usize) -> Desk {
        Desk { ids: ids.into(), last: 0, number }
    }

    /// Where the entry of an id lies, if it is the one that is looked for. It stays there while the desk holds it.
    /// Without one the desk holds nothing.
    #[inline]
    pub fn find_if<K, V>(&mut self, at: At, is_it: impl FnOnce(&Entry<K, V>) -> bool) -> Option<Place<K, V>> {
        let last = std::mem::replace(&mut self.last, at.part);
        if last != at.part {
            self.ids[last].let_go();
        }
        let reader = &mut self.ids[at.part];
        let place: Place<K, V> = place_of(reader.find(at.id)?);
        let hold = Hold::had(reader);
        // SAFETY: the reader holds the entry, so it hasn't come out.
        if !is_it(unsafe { place.as_ref() }) {
            return None;
        }
        hold.keep();
        Some(place)
    }

    /// What `read` makes of the entry of an id, if it is the one that is looked for.
    pub fn read_if<K, V, R>(
        &mut self,
        at: At,
        is_it: impl FnOnce(&Entry<K, V>) -> bool,
        read: impl FnOnce(&Entry<K, V>) -> R,
    ) -> Option<R> {
        let place = self.find_if(at, is_it)?;
        // SAFETY: the desk holds the entry until it finds another or lets it go.
        Some(read(unsafe { place.as_ref() }))
    }

    /// The hold of what was found there last.
    #[inline]
    pub fn hold(&mut self, at: At) -> Hold<'_> {
        Hold::had(&mut self.ids[at.part])
    }

    /// Lets go what was found last, if that is still held.
    #[inline]
    pub fn let_go(&mut self) {
        self.ids[self.last].let_go();
    }
}
