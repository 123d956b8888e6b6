//! What clients find of a key: bytes that are made once, at a fill or at a change.
use crate::configuration::Encoding;
use crate::content::Content;
use crate::resp::Reply;
use std::sync::atomic::{AtomicBool, Ordering::Relaxed};

#[derive(Debug)]
pub struct Value {
    /// None where the key has no row.
    pub text: Option<Box<str>>,
    encoding: Encoding,
    /// Since the clock's hand passed the key.
    was_read: AtomicBool,
}

impl Value {
    pub fn of(content: &Content, encoding: Encoding) -> Value {
        Value { text: content.text(encoding), encoding, was_read: AtomicBool::new(false) }
    }

    pub fn push(&self, reply: &mut Reply) {
        match (&self.text, self.encoding) {
            (None, _) => reply.nil(),
            (Some(text), Encoding::Map) => reply.made(text),
            (Some(text), _) => reply.bulk(text),
        }
    }

    /// Written where it isn't so yet, so that reads of one key don't disturb each other.
    pub fn is_read(&self) {
        if !self.was_read.load(Relaxed) {
            self.was_read.store(true, Relaxed);
        }
    }

    pub fn was_read(&self) -> bool {
        self.was_read.swap(false, Relaxed)
    }

    pub fn size(&self) -> usize {
        self.text.as_ref().map_or(0, |text| text.len())
    }
}
