//! PostgreSQL's connections, its stream of changes, and the order of changes and answers.
pub mod base;
pub mod fresh;
pub mod log;
pub mod lsn;
pub mod parts;
pub mod pgoutput;
pub mod pool;
pub mod pq;
pub mod query;
pub mod snapshot;
