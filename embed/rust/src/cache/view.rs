//! Caches of rows that are kept up to date by changes.
use super::{Cache, CacheBuilder, Change};
use crate::{Delta, Fault, Row};
use std::borrow::Borrow;
use std::collections::hash_map::RandomState;
use std::hash::{BuildHasher, Hash};
use std::sync::Arc;

/// A cache of rows, of which a key may have any number. Where the base changes, the rows that the view holds change with
/// it, and need no load. They are in the order that their load gave them until they change, and in ascending order from
/// then on; with [`CacheBuilder::sorted`] they are in ascending order always.
///
/// ```
/// use nr::{Delta, Row, View};
///
/// let votes: View<String> = View::builder().capacity(100).sorted().open()?;
/// let mut reader = votes.reader().expect("there are readers left");
/// let row = |user, weight| Row { a: user, b: weight };
/// // The base gives them in any order.
/// let found = reader.get_with("article", || Box::new([row(7, 2), row(5, 4)]));
/// assert_eq!(**found, [row(5, 4), row(7, 2)]);
/// drop(found);
/// let change = votes.change("article");
/// // Here a vote is written to the base, while others read and load.
/// assert_eq!(change.commit(&[Delta::plus(row(3, 1))]), Ok(true));
/// assert_eq!(reader.get("article").as_deref(), Some(&[row(3, 1), row(5, 4), row(7, 2)].into()));
/// # Ok::<(), nr::Fault>(())
/// ```
pub type View<K, S = RandomState> = Cache<K, Box<[Row]>, S>;

impl<K, S> CacheBuilder<K, Box<[Row]>, S> {
    /// A view whose rows are in ascending order, whatever order they come in: what a load gives, or a put, is sorted
    /// before anybody has it, without a lock and by the thread that puts it. So is what a load gives that isn't held.
    pub fn sorted(mut self) -> CacheBuilder<K, Box<[Row]>, S> {
        self.arrange = Some(Arc::new(|rows: &mut Box<[Row]>| rows.sort_unstable()));
        self
    }
}

impl<K: Hash + Eq, S: BuildHasher> Cache<K, Box<[Row]>, S> {
    /// Begins a change and ends it, as [`Change::commit`] does: for a base that has changed by now, where loads are made
    /// by the same thread. Whether rows that another thread has loaded, or that came by a [`Request`](crate::Request), are
    /// from before the change or from after it nobody can tell: these go, so that none of them is there twice.
    pub fn update<Q>(&self, key: &Q, deltas: &[Delta]) -> Result<bool, Fault>
    where
        K: Borrow<Q>,
        Q: Hash + Eq + ToOwned<Owned = K> + ?Sized,
    {
        self.change(key).end_own(|rows| changed(rows, deltas))
    }
}

impl<K: Hash + Eq, S: BuildHasher> Change<'_, K, Box<[Row]>, S> {
    /// Ends it with the rows that the base has got and lost, none where it stayed as it was: whether the view holds the
    /// key. No get that begins after this has returned sees older rows. Where a row that was lost isn't there, the view's
    /// rows were not the base's: they go, and the call is refused with [`Fault::NoRow`]. Rows are sorted without a lock.
    pub fn commit(self, deltas: &[Delta]) -> Result<bool, Fault> {
        self.end(|rows| changed(&rows.value, deltas).map(Some))
    }
}

/// Rows after a change. Refused where one that is lost isn't there, nor among those that come.
fn changed(rows: &[Row], deltas: &[Delta]) -> Result<Box<[Row]>, Fault> {
    let of_sign = |is_plus| deltas.iter().filter(move |delta| delta.is_plus() == is_plus).map(Delta::row);
    let mut rows: Vec<Row> = rows.iter().copied().chain(of_sign(true)).collect();
    let mut lost: Vec<Row> = of_sign(false).collect();
    rows.sort();
    lost.sort();
    let mut lost = lost.into_iter().peekable();
    rows.retain(|row| lost.next_if_eq(row).is_none());
    lost.next().map_or(Ok(rows.into()), |_| Err(Fault::NoRow))
}
