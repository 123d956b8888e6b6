//! Connections to PostgreSQL in which a value has one text, whoever asks for it.
use super::pq::{Connection, Fault};
use std::time::Duration;

pub struct Base {
    address: String,
    pub deadline: Duration,
}

/// What PostgreSQL has in which to cancel a statement that takes too long, before the connection is given up.
const TO_CANCEL: Duration = Duration::from_secs(1);

/// So that a connection to a machine that is gone breaks, and none is to a standby, which has no slots. What the operator's
/// address says goes before it.
const WATCHED: &str = "application_name=edge keepalives_idle=10 keepalives_interval=5 keepalives_count=3
    tcp_user_timeout=20000 target_session_attrs=primary";
const ONE_TEXT: &str = "SET search_path = pg_catalog; SET client_encoding = 'UTF8'; SET timezone = 'UTC';
    SET datestyle = 'ISO, MDY'; SET intervalstyle = 'postgres'; SET extra_float_digits = 1; SET bytea_output = 'hex';
    SET lc_monetary = 'C'; SET standard_conforming_strings = on; SET row_security = off";

impl Base {
    pub fn new(address: &str, deadline: Duration) -> Base {
        Base { address: format!("{WATCHED} {address}"), deadline }
    }

    /// As the role and the database have it.
    pub fn as_it_is(&self) -> Result<Connection, Fault> {
        let mut connection = Connection::open(&self.address)?;
        self.limit(&mut connection)?;
        Ok(connection)
    }

    pub fn with_one_text(&self) -> Result<Connection, Fault> {
        let mut connection = self.as_it_is()?;
        one_text(&mut connection)?;
        Ok(connection)
    }

    /// One that changes come by. What it waits for has no limit.
    pub fn for_changes(&self) -> Result<Connection, Fault> {
        let mut connection = Connection::open(&format!("{} replication=database", self.address))?;
        one_text(&mut connection)?;
        Ok(connection)
    }

    fn limit(&self, connection: &mut Connection) -> Result<(), Fault> {
        connection.limit(self.deadline + TO_CANCEL);
        connection.run(&format!("SET statement_timeout = {}", self.deadline.as_millis())).map(drop)
    }
}

pub fn one_text(connection: &mut Connection) -> Result<(), Fault> {
    connection.run(ONE_TEXT).map(drop)
}
