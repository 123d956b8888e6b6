//! Which transactions a statement sees.
use super::lsn::{Lsn, Xid};
use std::str::FromStr;

/// A table, by PostgreSQL's number of it. Another one that takes its name has another number.
#[derive(Clone, Copy, Debug, Default, PartialEq, Eq, Hash)]
pub struct TableId(pub u32);

/// What a statement saw: all that its snapshot sees was committed before this place in the log.
pub struct Seen {
    pub snapshot: Snapshot,
    pub place: Lsn,
    pub table: TableId,
}

/// What `pg_current_snapshot()` tells. A snapshot sees the committed transactions below `next` but those that were
/// running. The numbers are those of whole transactions, as the stream's are: parts of one need no care.
#[derive(Clone, Debug)]
pub struct Snapshot {
    next: u64,
    running: Vec<u64>,
}

impl FromStr for Snapshot {
    type Err = String;

    fn from_str(text: &str) -> Result<Snapshot, String> {
        let parts = || {
            let mut parts = text.split(':').skip(1);
            let next = parts.next()?.parse().ok()?;
            let running = parts.next()?.split(',').filter(|it| !it.is_empty());
            Some(Snapshot { next, running: running.map(|it| it.parse().ok()).collect::<Option<_>>()? })
        };
        parts().ok_or_else(|| format!("{text} is no snapshot"))
    }
}

impl Snapshot {
    /// Whether it sees a transaction that has committed.
    pub fn sees(&self, xid: Xid) -> bool {
        self.sees_whole(self.whole(xid))
    }

    /// Whether it sees each transaction that the other sees.
    pub fn covers(&self, other: &Snapshot) -> bool {
        !self.running.iter().copied().chain(self.next..other.next).any(|xid| other.sees_whole(xid))
    }

    fn sees_whole(&self, xid: u64) -> bool {
        xid < self.next && !self.running.contains(&xid)
    }

    /// The number of 64 bits that is nearest to `next` and has these as its low ones.
    fn whole(&self, Xid(low): Xid) -> u64 {
        self.next.wrapping_add_signed(i64::from(low.wrapping_sub(self.next as u32) as i32))
    }
}

#[cfg(test)]
mod tests {
    use super::*;

    #[test]
    fn a_snapshot_sees_what_committed_before_it() {
        let snapshot: Snapshot = "10:20:12,15".parse().unwrap();
        let seen: Vec<u32> = (8..22).filter(|xid| snapshot.sees(Xid(*xid))).collect();
        assert_eq!(seen, [8, 9, 10, 11, 13, 14, 16, 17, 18, 19]);
        // Numbers of 64 bits, of which the stream tells the low ones.
        let later: Snapshot = "8589934591:8589934594:8589934593".parse().unwrap();
        assert_eq!([u32::MAX, 0, 1, 2].map(|xid| later.sees(Xid(xid))), [true, true, false, false]);
        for (one, covers) in
            [("10:20:12,15", true), ("20:20:", true), ("10:20:11,12,15", false), ("10:19:12,15", false)]
        {
            assert_eq!(one.parse::<Snapshot>().unwrap().covers(&snapshot), covers, "{one}");
        }
        assert!("10:20:20".parse::<Snapshot>().is_ok() && "x".parse::<Snapshot>().is_err());
    }
}
