//! When a part looks for what left and nobody sees any more. A look goes over all readers' words, so it is for several
//! changes, and for more of them where there are more readers.

/// How many loaded values may land by one look, which mostly had others make room.
const LANDINGS: u16 = 8;

/// For how many readers' words a change pays at most.
const READERS: usize = 64;

/// In a part of fewer entries each landing looks, so that what waits is little beside what is held.
const LEAST_PART: usize = 128;

/// In few bytes, since each miss writes it. With the most readers a look is for 1,031 landings.
pub(super) struct Reaping {
    /// How many changes a look is for, or how many entries that left; and how many of them where they are landings.
    changes: u16,
    landings: u16,
    is_landing: bool,
    /// How many came since the last look while an entry waited.
    since: u16,
    /// How many entries readers had at the last look.
    held_back: u32,
}

impl Reaping {
    /// Of a part of so many entries. Where somebody listens to what leaves, or entries may be large, a landing is as any
    /// change.
    pub fn new(capacity: usize, readers: usize, is_waited_for: bool) -> Reaping {
        let changes = 1 + (readers / READERS) as u16;
        let landings = if is_waited_for || capacity < LEAST_PART { changes } else { changes + LANDINGS - 1 };
        Reaping { changes, landings, is_landing: false, since: 0, held_back: 0 }
    }

    /// The change that is under way is the landing of a loaded value.
    pub fn lands(&mut self) {
        self.is_landing = true;
    }

    /// Has the change that is under way look.
    pub fn hurry(&mut self) {
        self.since = self.landings;
    }

    /// Whether a change looks, after which so many entries wait.
    pub fn is_due(&mut self, waiting: usize) -> bool {
        let each = if std::mem::take(&mut self.is_landing) { self.landings } else { self.changes };
        self.since += 1;
        if waiting == 0 {
            self.looked(0);
        }
        waiting > 0 && (self.since >= each || waiting >= self.held_back as usize + usize::from(each))
    }

    /// Notes a look, after which so many wait still.
    pub fn looked(&mut self, waiting: usize) {
        (self.since, self.held_back) = (0, waiting as u32);
    }
}
