//! What a change of the store has mostly one of, or none.
use std::iter::Chain;
use std::{option, vec};

/// The first takes no memory of its own, and so none is asked for under a part's lock.
#[repr(C)]
pub(super) struct Handful<T> {
    first: Option<T>,
    others: Vec<T>,
}

impl<T> Handful<T> {
    pub fn push(&mut self, one: T) {
        match self.first {
            None => self.first = Some(one),
            Some(_) => self.others.push(one),
        }
    }

    /// What is made of each of them.
    pub fn map<U>(self, mut make: impl FnMut(T) -> U) -> Handful<U> {
        let first = self.first.map(&mut make);
        // Most often there is nothing to go through.
        let others = if self.others.is_empty() { Vec::new() } else { self.others.into_iter().map(make).collect() };
        Handful { first, others }
    }

    pub fn is_empty(&self) -> bool {
        self.first.is_none()
    }

    pub fn iter(&self) -> impl Iterator<Item = &T> {
        self.first.iter().chain(&self.others)
    }
}

impl<T> Default for Handful<T> {
    fn default() -> Self {
        Handful { first: None, others: Vec::new() }
    }
}

impl<T> IntoIterator for Handful<T> {
    type Item = T;
    type IntoIter = Chain<option::IntoIter<T>, vec::IntoIter<T>>;

    fn into_iter(self) -> Self::IntoIter {
        self.first.into_iter().chain(self.others)
    }
}

impl<T> FromIterator<T> for Handful<T> {
    fn from_iter<I: IntoIterator<Item = T>>(all: I) -> Self {
        let mut all = all.into_iter();
        Handful { first: all.next(), others: all.collect() }
    }
}
