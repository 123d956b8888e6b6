//! Where a part's entries sit, for calls that go through all of them.
use super::all::Seated;

/// How many seats are looked at under the lock at a time, so that others get it soon.
const AT_ONCE: usize = 64;

/// An entry's place among those of its part, from its put on until it comes out.
pub(super) type Seat = u32;

/// Which ids sit where. A free seat has the id that sat there last, whose entry, where it has one, tells that it sits
/// elsewhere.
#[repr(C)]
pub(super) struct Seats {
    free: Vec<Seat>,
    ids: Vec<u64>,
}

impl Seats {
    /// With room for so many, so that none is made under the lock most often.
    pub fn new(entries: usize) -> Seats {
        Seats { ids: Vec::with_capacity(entries), free: Vec::new() }
    }

    /// A seat for the entry of an id.
    pub fn take(&mut self, id: u64) -> Seat {
        let Some(seat) = self.free.pop() else {
            self.ids.push(id);
            return (self.ids.len() - 1) as Seat;
        };
        self.ids[seat as usize] = id;
        seat
    }

    pub fn leave(&mut self, seat: Seat) {
        self.free.push(seat);
    }

    /// The first of each few seats that are looked at together.
    pub fn firsts(&self) -> impl Iterator<Item = usize> {
        (0..self.ids.len()).step_by(AT_ONCE)
    }

    /// Who sits on these few, or sat there.
    pub fn from(&self, first: usize) -> Vec<Seated> {
        let few = self.ids.iter().zip(0..).skip(first).take(AT_ONCE);
        few.map(|(id, seat)| Seated { id: *id, seat }).collect()
    }
}
