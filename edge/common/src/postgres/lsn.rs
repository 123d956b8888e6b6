//! PostgreSQL's names for a place in its log and for a transaction.
use super::pq::{Connection, Fault};
use std::{fmt, str::FromStr};

/// A place in the log, which grows by the bytes that are written.
#[derive(Clone, Copy, Debug, Default, PartialEq, Eq, PartialOrd, Ord)]
pub struct Lsn(pub u64);

impl FromStr for Lsn {
    type Err = String;

    fn from_str(text: &str) -> Result<Lsn, String> {
        let half = |digits| u32::from_str_radix(digits, 16).ok().map(u64::from);
        let place = text.split_once('/').and_then(|(high, low)| Some(half(high)? << 32 | half(low)?));
        place.map(Lsn).ok_or_else(|| "a token is two hexadecimal numbers with a slash between".into())
    }
}

impl Lsn {
    /// A place that PostgreSQL tells with the size of its log's files. Where it is the end of a page's header, this is
    /// the page's begin: a stream comes as far, and no farther until more is written.
    pub fn before_header(place: &str, size: &str) -> Result<Lsn, String> {
        let (Lsn(place), size) = (place.parse()?, size.parse::<u64>().map_err(|fault| fault.to_string())?);
        let header = if place % size < PAGE { FIRST_HEADER } else { HEADER };
        Ok(Lsn(if place % PAGE == header { place - header } else { place }))
    }
}

impl Lsn {
    /// Behind a connection's last commit: what nobody waits to see flushed isn't on the disk yet.
    pub fn of_commit(connection: &mut Connection) -> Result<Lsn, Fault> {
        let told = connection.run(OF_COMMIT)?.concat().concat();
        let [place, size] = &told[..] else { return Err(String::from("PostgreSQL tells no place").into()) };
        Ok(Lsn::before_header(place, size)?)
    }
}

const OF_COMMIT: &str = "SELECT CASE current_setting('synchronous_commit') WHEN 'off' THEN pg_current_wal_insert_lsn()
    ELSE pg_current_wal_flush_lsn() END, pg_size_bytes(current_setting('wal_segment_size'))";

/// In bytes, as PostgreSQL is built. A file's first page has a longer header.
const PAGE: u64 = 8192;
const HEADER: u64 = 24;
const FIRST_HEADER: u64 = 40;

impl fmt::Display for Lsn {
    fn fmt(&self, f: &mut fmt::Formatter<'_>) -> fmt::Result {
        write!(f, "{:X}/{:X}", self.0 >> 32, self.0 as u32)
    }
}

/// A transaction, by the 32 bits that the stream tells of its number.
#[derive(Clone, Copy, Debug, PartialEq, Eq)]
pub struct Xid(pub u32);

#[cfg(test)]
mod tests {
    use super::*;

    #[test]
    fn a_place_after_a_header_is_where_its_page_begins() {
        let before = |place: u64| Lsn::before_header(&Lsn(place).to_string(), "1048576").unwrap().0;
        let (page, file) = (3 * 8192, 5 << 20);
        assert_eq!([page + 24, file + 40].map(before), [page, file]);
        let others = [page, page + 16, page + 40, file, file + 24, file + 80];
        assert_eq!(others.map(before), others);
    }
}
