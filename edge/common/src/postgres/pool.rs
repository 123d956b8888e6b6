//! Connections that rest between their uses, each one user's at a time: there are as many as users at a time were.
use super::pq::{Connection, Fault};
use std::sync::{Mutex, MutexGuard, PoisonError};

#[derive(Default)]
pub struct Pool {
    at_rest: Mutex<Vec<Connection>>,
}

impl Pool {
    /// Gives a connection to `use_it`, one that rests or a new one. Where it is found to be gone, what rests was broken by
    /// the same end of the server.
    pub fn with<T>(
        &self,
        open: impl FnOnce() -> Result<Connection, Fault>,
        use_it: impl FnOnce(&mut Connection) -> Result<T, Fault>,
    ) -> Result<T, Fault> {
        let rested = self.at_rest().pop();
        let mut connection = rested.map_or_else(open, Ok)?;
        let used = use_it(&mut connection);
        match &used {
            Err(fault) if fault.is_of_connection() => self.at_rest().clear(),
            _ => self.at_rest().push(connection),
        }
        used
    }

    fn at_rest(&self) -> MutexGuard<'_, Vec<Connection>> {
        self.at_rest.lock().unwrap_or_else(PoisonError::into_inner)
    }
}
