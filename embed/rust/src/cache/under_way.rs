//! The loads of a part that are under way, of each id one at most.
use super::flights::{End, Flight};
use super::handful::Handful;
use std::borrow::Borrow;
use std::mem::needs_drop;
use std::sync::Arc;

/// A load of a key, and the number by which the store knows it.
struct Known<K> {
    id: u64,
    number: u64,
    key: K,
    /// What those share who wait for it. The first of them makes it: mostly nobody waits.
    flight: Option<Arc<Flight>>,
}

/// A load that has ended, and how. Its key is the user's, whose drop is not run under the lock.
pub(super) struct Over<K> {
    load: Known<K>,
    how: End,
}

impl<K> Over<K> {
    /// Tells those who wait for it.
    pub fn tell(self) {
        if let Some(flight) = self.load.flight {
            flight.end(self.how);
        }
    }
}

/// The same loads as the store has. They are few, and each is looked for among all of them. Each miss writes the first word.
#[repr(C)]
pub(super) struct UnderWay<K> {
    loads: Vec<Known<K>>,
    /// Those that have ended, which nobody was told yet.
    over: Handful<Over<K>>,
}

impl<K> UnderWay<K> {
    pub fn new() -> UnderWay<K> {
        UnderWay { loads: Vec::new(), over: Handful::default() }
    }

    pub fn begin(&mut self, id: u64, number: u64, key: K) {
        self.loads.push(Known { id, number, key, flight: None });
    }

    /// What those share who wait for the load of a key, if there is one.
    pub fn flight_of<Q: Eq + ?Sized>(&mut self, id: u64, key: &Q) -> Option<Arc<Flight>>
    where
        K: Borrow<Q>,
    {
        let load = self.loads.iter_mut().find(|load| load.id == id)?;
        (load.key.borrow() == key).then(|| load.flight.get_or_insert_with(|| Arc::new(Flight::new())).clone())
    }

    pub fn count(&self) -> usize {
        self.loads.len()
    }

    pub fn has(&self, id: u64) -> bool {
        self.loads.iter().any(|load| load.id == id)
    }

    /// Ends the load of that number: whether it hadn't ended, by its value or since it was outdated.
    pub fn end(&mut self, number: u64, how: &End) -> bool {
        let place = self.loads.iter().position(|load| load.number == number);
        place.map(|place| self.end_at(place, how.clone())).is_some()
    }

    /// Ends the load of an id, whose value will not be held: its number.
    pub fn outdate(&mut self, id: u64) -> Option<u64> {
        let place = self.loads.iter().position(|load| load.id == id)?;
        Some(self.end_at(place, End::Outdated))
    }

    /// Ends one of them so.
    pub fn outdate_one(&mut self) -> Option<u64> {
        let last = self.loads.len().checked_sub(1)?;
        Some(self.end_at(last, End::Outdated))
    }

    fn end_at(&mut self, place: usize, how: End) -> u64 {
        let load = self.loads.swap_remove(place);
        let number = load.number;
        // Else there is nobody to tell, and nothing of the user's to drop.
        if load.flight.is_some() || needs_drop::<K>() {
            self.over.push(Over { load, how });
        }
        number
    }

    /// Those that ended since the last call, for those who wait for them to be told.
    pub fn take_over(&mut self) -> Handful<Over<K>> {
        // Mostly there are none, and then nothing is written.
        if self.over.is_empty() {
            return Handful::default();
        }
        std::mem::take(&mut self.over)
    }
}
