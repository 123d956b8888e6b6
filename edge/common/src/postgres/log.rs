//! The log: the transactions that were applied and that a snapshot may not see yet.
use super::lsn::{Lsn, Xid};
use super::{parts, snapshot::Snapshot};
use std::collections::{BTreeSet, VecDeque};

/// A transaction, as the stream brings it.
pub struct Transaction<C> {
    pub xid: Xid,
    /// Where it ends in PostgreSQL's log.
    pub end: Lsn,
    pub changes: C,
}

pub struct Log<C> {
    transactions: VecDeque<Logged<C>>,
    /// The number of the last request that was sent, and the numbers of those that aren't answered.
    sent: u64,
    under_way: BTreeSet<u64>,
}

struct Logged<C> {
    transaction: Transaction<C>,
    /// Where an answer saw it: the last request that was sent by then. Each later one sees it too.
    seen_after: Option<u64>,
}

impl<C> Default for Log<C> {
    fn default() -> Log<C> {
        Log { transactions: VecDeque::new(), sent: 0, under_way: BTreeSet::new() }
    }
}

impl<C> Log<C> {
    pub fn push(&mut self, transaction: Transaction<C>) {
        if parts::LOG {
            self.transactions.push_back(Logged { transaction, seen_after: None });
        }
    }

    pub fn count(&self) -> usize {
        self.transactions.len()
    }

    pub fn clear(&mut self) {
        self.transactions.clear();
    }

    /// The number of a request that is being sent.
    pub fn send(&mut self) -> u64 {
        self.sent += 1;
        self.under_way.insert(self.sent);
        self.sent
    }

    pub fn last_sent(&self) -> u64 {
        self.sent
    }

    pub fn is_awaited(&self) -> bool {
        !self.under_way.is_empty()
    }

    /// What a snapshot lacks of what was applied, in its order.
    pub fn unseen_by<'a>(&'a self, snapshot: &'a Snapshot) -> impl Iterator<Item = &'a C> {
        self.transactions.iter().map(|it| &it.transaction).filter(|it| !snapshot.sees(it.xid)).map(|it| &it.changes)
    }

    /// Requests were answered, and no longer count as under way.
    pub fn answered(&mut self, numbers: impl Iterator<Item = u64>) {
        numbers.for_each(|number| _ = self.under_way.remove(&number));
    }

    /// An answer came whose snapshot this is: what it saw goes, once each request that was sent before it is answered.
    pub fn prune(&mut self, snapshot: &Snapshot) {
        let sent = self.sent;
        for logged in self.transactions.iter_mut().filter(|it| it.seen_after.is_none()) {
            logged.seen_after = snapshot.sees(logged.transaction.xid).then_some(sent);
        }
        let first = self.under_way.first().copied().filter(|_| parts::PRUNING_RULE).unwrap_or(u64::MAX);
        self.transactions.retain(|it| it.seen_after.is_none_or(|sent| sent >= first));
    }
}
