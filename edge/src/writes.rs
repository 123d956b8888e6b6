//! Writes: statements that the configuration names, by connections of their own, so that they wait for no miss and no
//! miss for them.
use crate::configuration::Write;
use crate::guest::WRONG_COUNT;
use crate::lsn::Lsn;
use crate::needs::Lack;
use crate::pq::{Connection, Fault, WRONG_PARAMETERS};
use crate::shared::Shared;
use edge_common::later::Giver;
use std::sync::{mpsc::Receiver, Arc, Mutex, PoisonError};

pub const NO_ROOM: &str = "ERR other writes take too long: nothing was written";

fn name_of(write: usize) -> String {
    format!("write_{write}")
}

fn prepare(number: usize, write: &Write, connection: &mut Connection) -> Result<(), Fault> {
    connection.run(&format!("PREPARE {} AS {}", name_of(number), write.statement)).map(drop)
}

/// The statements that PostgreSQL doesn't understand, by the database as it is.
pub fn lacking(writes: &[Write], connection: &mut Connection) -> Result<Vec<Lack>, Fault> {
    let mut lacks = Vec::new();
    for (number, write) in writes.iter().enumerate() {
        match prepare(number, write, connection) {
            Err(fault) if fault.is_of_connection() => return Err(fault),
            Err(fault) => lacks.push(Lack {
                says: format!("the write {}: {}", write.name, fault.without_severity()),
                sql: "-- The statement is the configuration's to mend.".into(),
            }),
            Ok(()) => {}
        }
    }
    connection.run("DEALLOCATE ALL")?;
    Ok(lacks)
}

/// A client's write, which waits for a connection. Who takes it either writes or refuses.
pub struct Order(Mutex<Option<Asked>>);

pub struct Asked {
    write: usize,
    arguments: Vec<String>,
    client: Giver<Result<Lsn, String>>,
}

impl Order {
    pub fn new(write: usize, arguments: &[&str], client: Giver<Result<Lsn, String>>) -> Arc<Order> {
        let arguments = arguments.iter().map(|word| (*word).into()).collect();
        Arc::new(Order(Mutex::new(Some(Asked { write, arguments, client }))))
    }

    pub fn take(&self) -> Option<Asked> {
        self.0.lock().unwrap_or_else(PoisonError::into_inner).take()
    }
}

/// Writes for one client after another.
pub fn run(shared: &Shared, orders: &Mutex<Receiver<Arc<Order>>>) {
    loop {
        let next = orders.lock().unwrap_or_else(PoisonError::into_inner).recv();
        let Ok(order) = next else { return };
        if let Some(Asked { write, arguments, client }) = order.take() {
            let arguments: Vec<_> = arguments.iter().map(String::as_str).collect();
            client.give(self::write(shared, write, &arguments));
        }
    }
}

/// Writes, and gives the place of the commit: a read that brings it sees what was written, at any edge.
fn write(shared: &Shared, number: usize, arguments: &[&str]) -> Result<Lsn, String> {
    let (mut was_sent, mut was_written) = (false, false);
    let written = shared.writers.with(
        || opened(shared),
        |connection| {
            was_sent = true;
            let rows = connection.write_prepared(&name_of(number), arguments)?;
            was_written = rows > 0;
            Ok((rows, Lsn::of_commit(connection)?))
        },
    );
    match written {
        Ok((0, _)) => Err("ERR no row was written".into()),
        Ok((_, place)) => Ok(place),
        Err(fault) if fault.state == WRONG_PARAMETERS => Err(WRONG_COUNT.into()),
        Err(fault) => {
            let known = match fault.is_of_connection() {
                _ if was_written => "it was written, and its place isn't known: ",
                true if was_sent => "nobody knows whether it was written: ",
                _ => "",
            };
            Err(format!("ERR {known}{}", fault.without_severity()))
        }
    }
}

fn opened(shared: &Shared) -> Result<Connection, Fault> {
    let mut connection = shared.base.as_it_is()?;
    for (number, write) in shared.configuration.writes.iter().enumerate() {
        prepare(number, write, &mut connection)?;
    }
    Ok(connection)
}
