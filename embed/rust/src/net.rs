//! Any number of signed rows, as one change of a key.
use crate::{Delta, Fault, Row, Rows, Updated, Writer};
use std::collections::BTreeMap;
use std::iter::repeat_n;

/// The most signed rows of one update.
const BATCH: usize = 64;

/// How often each row is there, or is added, in ascending order.
type Counts = BTreeMap<Row, i64>;

fn net_of(deltas: &[Delta]) -> Counts {
    let mut net = Counts::new();
    for delta in deltas {
        *net.entry(delta.row()).or_default() += if delta.is_plus() { 1 } else { -1 };
    }
    net
}

/// The signed rows of a net change.
fn batch_of(net: &Counts) -> Vec<Delta> {
    let signed = |sign: i64, make: fn(Row) -> Delta| {
        net.iter().flat_map(move |(row, count)| repeat_n(make(*row), (count * sign).max(0) as usize))
    };
    signed(-1, Delta::minus).chain(signed(1, Delta::plus)).collect()
}

/// The rows with a net change, or none where a row that it takes away is not there.
fn changed(rows: &[Row], mut net: Counts) -> Option<Vec<Row>> {
    for row in rows {
        *net.entry(*row).or_default() += 1;
    }
    let each = |(row, count)| Some(repeat_n(row, usize::try_from(count).ok()?));
    let rows: Option<Vec<_>> = net.into_iter().map(each).collect();
    rows.map(|rows| rows.into_iter().flatten().collect())
}

impl Delta {
    /// Rows with any number of signed rows applied as one change, as by [`Writer::update_net`], in ascending order. The
    /// rows need not be in order. Refused with [`Fault::NoRow`].
    pub fn apply(deltas: &[Delta], rows: &[Row]) -> Result<Vec<Row>, Fault> {
        changed(rows, net_of(deltas)).ok_or(Fault::NoRow)
    }
}

impl Writer {
    /// Applies any number of signed rows to the rows of a key as one change, whole or not at all: what they come to
    /// together counts, and not their order, so that a row that is added and taken away need not be there. At a key that
    /// isn't filled they are [`Updated::Dropped`]. Refused with [`Fault::NoRow`], [`Fault::TooMany`], [`Fault::NoSlot`]
    /// or [`Fault::AllFilled`]; then nothing has changed.
    pub fn update_net(&mut self, key: u32, deltas: &[Delta]) -> Result<Updated, Fault> {
        let net = net_of(deltas);
        let batch = batch_of(&net);
        if (1..=BATCH).contains(&batch.len()) {
            return self.update(key, &batch);
        }
        let mut room = Rows::new();
        let Some(rows) = self.look(key, &mut room) else { return Ok(Updated::Dropped) };
        if batch.is_empty() {
            return Ok(Updated::Done);
        }
        let rows = changed(rows, net).ok_or(Fault::NoRow)?;
        self.replace(key, &rows)
    }
}
