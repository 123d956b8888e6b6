//! A slot of the edge's own, with a name that no other has. A temporary one goes with the connection that made it, and a
//! lasting one when the edge drops it.
use crate::configuration::Configuration;
use crate::dataflow::First;
use crate::fault::End;
use crate::lsn::Lsn;
use crate::needs::{self, Lack};
use crate::pq::{quoted, Connection, Fault};
use crate::shared::Shared;
use crate::tables::{self, Table};
use edge_common::pause::random;
use std::process;

/// A slot that stays where its connection breaks.
#[derive(Clone)]
pub struct Lasting {
    pub name: String,
    /// Which start of the server it was made in.
    start: String,
    /// All that was committed before this place has come from it.
    pub reached: Lsn,
}

const OWN: &str = "FROM pg_replication_slots WHERE slot_name = $1 AND slot_type = 'logical' AND plugin = 'pgoutput'
    AND database = current_database() AND confirmed_flush_lsn <= $2::pg_lsn";

/// Refused where something lacks, with a line for each.
pub fn checked(configuration: &Configuration, beside: &mut Connection) -> Result<(), End> {
    refused(needs::lacking(configuration, beside)?)
}

pub fn refused(lacks: Vec<Lack>) -> Result<(), End> {
    let says: Vec<_> = lacks.into_iter().map(|lack| lack.says).collect();
    says.is_empty().then_some(()).ok_or_else(|| End::Refused(says.join("\nedge: ")))
}

/// Makes one, which waits for the end of each transaction that is running. The stream begins with what it gives.
pub fn make(shared: &Shared, connection: &mut Connection) -> Result<(String, First, Vec<Table>), End> {
    checked(&shared.configuration, &mut shared.base.as_it_is()?)?;
    let name = format!("edge_{}_{:016x}", process::id(), random());
    let is_lasting = shared.configuration.source.lasting_slot;
    let start = start_of(connection)?;
    // Before it is there: the answer may be lost.
    let lasting = |reached: Lsn| is_lasting.then(|| Lasting { name: name.clone(), start: start.clone(), reached });
    shared.set_lasting(lasting(Lsn(u64::MAX)));
    let kind = if is_lasting { "" } else { "TEMPORARY" };
    let sql = format!("CREATE_REPLICATION_SLOT {name} {kind} LOGICAL pgoutput (SNAPSHOT 'export')");
    let slot = connection.run(&sql)?.concat().concat();
    let [_, place, snapshot, _] = &slot[..] else { return Err(End::Lost("a slot has no snapshot".into())) };
    let place: Lsn = place.parse().map_err(End::Lost)?;
    shared.set_lasting(lasting(place));
    // What is changed from here on the stream tells.
    let mut beside = shared.base.as_it_is()?;
    checked(&shared.configuration, &mut beside)?;
    let tables = tables::of_views(&shared.configuration.views, &mut beside)?;
    let begin = "BEGIN ISOLATION LEVEL REPEATABLE READ; SET TRANSACTION SNAPSHOT";
    let told = beside.run(&format!("{begin} {}; SELECT pg_current_snapshot(); COMMIT", quoted(snapshot)))?;
    let seen = told.concat().concat().pop().unwrap_or_default();
    let ids = tables.iter().map(|table| table.id).collect();
    let first = First { snapshot: seen.parse().map_err(End::Lost)?, place, tables: ids };
    Ok((name, first, tables))
}

/// Before a lasting slot goes on, by the connection that it is to have: whether the server is the one that it was made in,
/// and has lost nothing of what it told.
pub fn may_go_on(shared: &Shared, connection: &mut Connection) -> Result<(), End> {
    checked(&shared.configuration, &mut shared.base.as_it_is()?)?;
    let (start, lasting) = (start_of(connection)?, shared.lasting());
    let is_same = lasting.is_some_and(|lasting| lasting.start == start);
    is_same.then_some(()).ok_or_else(|| End::Lost("PostgreSQL was started anew".into()))
}

/// Once it goes on: whether it brings all that hasn't come. One that another made of its name may not.
pub fn is_whole(shared: &Shared) -> Result<(), End> {
    let Some(Lasting { name, reached, .. }) = shared.lasting() else { return Ok(()) };
    let found = shared.base.as_it_is()?.run_with(&format!("SELECT 1 {OWN}"), &[&name, &reached.to_string()])?;
    let is_whole = !found.is_empty();
    is_whole.then_some(()).ok_or_else(|| End::Lost(format!("the slot {name} lacks what came after {reached}")))
}

/// Drops the lasting one, where there is one. Another's of its name stays.
pub fn drop_lasting(shared: &Shared) -> Result<(), Fault> {
    let Some(Lasting { name, reached, .. }) = shared.lasting() else { return Ok(()) };
    let sql = format!("SELECT pg_drop_replication_slot(slot_name) {OWN}");
    shared.base.as_it_is()?.run_with(&sql, &[&name, &reached.to_string()])?;
    shared.set_lasting(None);
    Ok(())
}

/// When the server was started, or has recovered by itself, as it does where one of its processes is killed: then it counts
/// these statistics anew.
fn start_of(connection: &mut Connection) -> Result<String, Fault> {
    let sql = "SELECT pg_postmaster_start_time(), stats_reset FROM pg_stat_bgwriter";
    connection.run(sql).map(|tables| tables.concat().concat().concat())
}
