//! What servers of the Redis protocol share: commands and replies, and the end. With the feature `clients` also what serves
//! clients, and with `postgres` what follows a database.
pub mod command;
pub mod ending;
#[cfg(feature = "clients")]
pub mod event_loop;
pub mod guest;
pub mod http;
pub mod later;
#[cfg(feature = "clients")]
pub mod listener;
pub mod pause;
#[cfg(feature = "postgres")]
pub mod postgres;
pub mod progress;
pub mod resp;
#[cfg(feature = "clients")]
pub mod session;
#[cfg(feature = "clients")]
pub mod wire;
