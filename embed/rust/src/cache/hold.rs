//! What keeps a value while a reader borrows it.
use crate::ids::IdReader;

/// A reader's hold of an entry, which ends with this. Until then the entry doesn't come out.
pub(super) struct Hold<'a>(&'a mut IdReader);

impl<'a> Hold<'a> {
    /// The hold that a reader has.
    #[inline]
    pub fn had(reader: &'a mut IdReader) -> Hold<'a> {
        Hold(reader)
    }

    /// A hold of the entry of an id, which was put there a moment ago and which nobody can take meanwhile.
    pub fn of(reader: &'a mut IdReader, id: u64) -> Hold<'a> {
        assert!(reader.hold(id).is_some(), "the id has an entry");
        Hold(reader)
    }

    /// Leaves it with the reader, of whom it is to be had again.
    #[inline]
    pub fn keep(self) {
        std::mem::forget(self);
    }
}

impl Drop for Hold<'_> {
    #[inline]
    fn drop(&mut self) {
        self.0.let_go();
    }
}
