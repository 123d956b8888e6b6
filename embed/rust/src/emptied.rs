//! A map that begins anew.
use crate::{Cancel, KeyKind, Writer};

/// What became of the keys of a map that was emptied, each list in ascending order. The others were holes.
#[derive(Clone, Debug, Default, PartialEq, Eq)]
#[must_use = "those who wait for the keys that were cancelled are to be woken"]
pub struct Emptied {
    /// The keys that were filled.
    pub evicted: Vec<u32>,
    /// The keys whose requests were taken back: their tickets fill nothing any more.
    pub cancelled: Vec<u32>,
    /// The keys whose requests can't be taken back, since they have the last ticket number, 4,194,303: their tickets still
    /// fill them, and rows that were read before this are not to be filled.
    pub worn: Vec<u32>,
}

impl Writer {
    /// Makes each filled key a hole and takes each request back, as where changes were missed and nothing that was read
    /// before may be told any more. Looks at every key. Those who wait for the keys that were cancelled are to be woken,
    /// to request them again.
    pub fn empty(&mut self) -> Emptied {
        let mut emptied = Emptied::default();
        for key in 0..self.map.keys {
            match self.state(key) {
                KeyKind::Hole => continue,
                KeyKind::Rows => {
                    self.evict(key);
                    &mut emptied.evicted
                }
                KeyKind::Asked => match self.cancel(key) {
                    Cancel::Worn => &mut emptied.worn,
                    _ => &mut emptied.cancelled,
                },
            }
            .push(key);
        }
        emptied
    }
}
