//! The messages of PostgreSQL's plug-in `pgoutput`, version 1, as far as an edge needs them.
use super::lsn::{Lsn, Xid};
use super::snapshot::TableId;
use std::str;

/// What is told of a row's column.
#[derive(Clone, Copy, Debug, PartialEq, Eq)]
pub enum Cell<'a> {
    Text(&'a str),
    Null,
    /// It is what it was before the change, or is none of those that tell the row that was.
    Untold,
}

pub type Cells<'a> = Vec<Cell<'a>>;

#[derive(Debug, PartialEq)]
pub enum Message<'a> {
    Begin(Xid),
    /// With the place at which the transaction ends.
    Commit(Lsn),
    /// The table as it is from here on.
    Table(Description<'a>),
    Change(TableId, Change<'a>),
    Truncate(Vec<TableId>),
    /// What somebody wrote to the log, by its prefix.
    Note(&'a str),
    Other,
}

/// All that is told of a table.
#[derive(Debug, PartialEq)]
pub struct Description<'a> {
    pub table: TableId,
    /// Of a change the row that was is told whole.
    pub is_told_whole: bool,
    pub columns: Vec<&'a str>,
    /// Which of them are told of the row that was.
    pub identity: Vec<bool>,
    pub bytes: &'a [u8],
}

/// What is told of a change, as it came.
#[derive(Debug, PartialEq)]
pub struct Change<'a> {
    is_of_row: bool,
    bytes: &'a [u8],
}

impl<'a> Change<'a> {
    /// The row that was there, of which the columns of its identity are told, and the one that is. None where that can't be
    /// understood.
    pub fn rows(&self, identity: &[bool]) -> Option<(Option<Cells<'a>>, Option<Cells<'a>>)> {
        let of_identity = |cells: Cells<'a>| -> Cells<'a> {
            cells.into_iter().zip(identity).map(|(cell, is)| if *is { cell } else { Cell::Untold }).collect()
        };
        let (mut bytes, mut was, mut is) = (Bytes(self.bytes), None, None);
        while let Some(kind) = bytes.byte() {
            match kind {
                b'O' | b'K' => was = Some(of_identity(bytes.cells()?)),
                b'N' => is = Some(bytes.cells()?),
                _ => return None,
            }
        }
        if self.is_of_row && was.is_none() {
            // Of a row whose identity stays nothing else is told.
            was = is.clone().map(of_identity);
        }
        for (is, was) in is.iter_mut().flatten().zip(was.iter().flatten()) {
            // A long text that stays is told of the row before alone.
            *is = if *is == Cell::Untold { *was } else { *is };
        }
        Some((was, is))
    }
}

impl Message<'_> {
    /// None where it can't be understood.
    pub fn of(bytes: &[u8]) -> Option<Message<'_>> {
        let mut bytes = Bytes(bytes);
        Some(match bytes.byte()? {
            b'B' => Message::Begin(Xid(u32::from_be_bytes(bytes.skip(16)?.array()?))),
            b'C' => Message::Commit(Lsn(u64::from_be_bytes(bytes.skip(9)?.array()?))),
            b'R' => Message::Table(bytes.description()?),
            kind @ (b'I' | b'U' | b'D') => {
                Message::Change(bytes.table()?, Change { is_of_row: kind == b'U', bytes: bytes.0 })
            }
            b'T' => Message::Truncate(bytes.tables()?),
            b'M' => Message::Note(bytes.skip(9)?.text()?),
            _ => Message::Other,
        })
    }
}

/// What is left of a message. Its numbers begin with their highest byte, and its texts end with a zero.
struct Bytes<'a>(&'a [u8]);

impl<'a> Bytes<'a> {
    fn take(&mut self, count: usize) -> Option<&'a [u8]> {
        let (taken, rest) = self.0.split_at_checked(count)?;
        self.0 = rest;
        Some(taken)
    }

    fn skip(&mut self, count: usize) -> Option<&mut Bytes<'a>> {
        self.take(count).map(|_| self)
    }

    fn array<const N: usize>(&mut self) -> Option<[u8; N]> {
        self.take(N)?.try_into().ok()
    }

    fn byte(&mut self) -> Option<u8> {
        self.array().map(u8::from_be_bytes)
    }

    fn count(&mut self) -> Option<u16> {
        self.array().map(u16::from_be_bytes)
    }

    fn text(&mut self) -> Option<&'a str> {
        let end = self.0.iter().position(|byte| *byte == 0)?;
        let text = str::from_utf8(self.take(end)?).ok()?;
        self.skip(1).map(|_| text)
    }

    fn table(&mut self) -> Option<TableId> {
        self.array().map(u32::from_be_bytes).map(TableId)
    }

    /// Those of a TRUNCATE.
    fn tables(&mut self) -> Option<Vec<TableId>> {
        let count = u32::from_be_bytes(self.array()?);
        self.skip(1)?;
        (0..count).map(|_| self.table()).collect()
    }

    fn description(&mut self) -> Option<Description<'a>> {
        let bytes = self.0;
        let table = self.table()?;
        self.text()?;
        self.text()?;
        let is_told_whole = self.byte()? == b'f';
        let column = |bytes: &mut Bytes<'a>| {
            let (is_of_identity, name) = (bytes.byte()? == 1, bytes.text()?);
            bytes.skip(8).map(|_| (name, is_of_identity))
        };
        let columns: Option<Vec<_>> = (0..self.count()?).map(|_| column(self)).collect();
        let (columns, identity) = columns?.into_iter().unzip();
        Some(Description { table, is_told_whole, columns, identity, bytes })
    }

    fn cells(&mut self) -> Option<Cells<'a>> {
        (0..self.count()?).map(|_| self.cell()).collect()
    }

    fn cell(&mut self) -> Option<Cell<'a>> {
        match self.byte()? {
            b't' => {
                let length = u32::from_be_bytes(self.array()?) as usize;
                str::from_utf8(self.take(length)?).ok().map(Cell::Text)
            }
            b'n' => Some(Cell::Null),
            b'u' => Some(Cell::Untold),
            _ => None,
        }
    }
}

#[cfg(test)]
mod tests {
    use super::Cell::{Null, Text, Untold};
    use super::*;

    const TABLE: TableId = TableId(7);

    /// Of a change of the table.
    fn rows<'a>(bytes: &'a [u8], identity: &[bool]) -> Option<(Option<Cells<'a>>, Option<Cells<'a>>)> {
        let Some(Message::Change(TABLE, change)) = Message::of(bytes) else { panic!() };
        change.rows(identity)
    }

    #[test]
    fn a_text_that_stays_is_the_one_of_before() {
        let was = b"U\0\0\0\x07O\0\x03t\0\0\0\x01at\0\0\0\x02bcnN\0\x03t\0\0\0\x01du".to_vec();
        let change = [&was[..], b"t\0\0\0\0"].concat();
        let (was, is) = (vec![Text("a"), Text("bc"), Null], vec![Text("d"), Text("bc"), Text("")]);
        assert_eq!(rows(&change, &[true; 3]), Some((Some(was), Some(is))));
    }

    #[test]
    fn of_the_row_that_was_its_identity_is_told() {
        let identity = [true, false];
        let lost = rows(b"D\0\0\0\x07K\0\x02t\0\0\0\x01an", &identity);
        assert_eq!(lost, Some((Some(vec![Text("a"), Untold]), None)));
        // Where that stays it is told of the row that is.
        let changed = rows(b"U\0\0\0\x07N\0\x02t\0\0\0\x01at\0\0\0\x01b", &identity);
        assert_eq!(changed, Some((Some(vec![Text("a"), Untold]), Some(vec![Text("a"), Text("b")]))));
        let stays = rows(b"U\0\0\0\x07N\0\x02t\0\0\0\x01au", &identity);
        assert_eq!(stays, Some((Some(vec![Text("a"), Untold]), Some(vec![Text("a"), Untold]))));
        let got = rows(b"I\0\0\0\x07N\0\x02t\0\0\0\x01an", &identity);
        assert_eq!(got, Some((None, Some(vec![Text("a"), Null]))));
    }

    #[test]
    fn what_is_told_in_part_is_not_understood() {
        for bytes in [&b"U\0\0\0\x07X\0\x01t\0\0\0\x01a"[..], b"I\0\0\0\x07N\0\x02t\0\0\0\x02a"] {
            assert_eq!(rows(bytes, &[true]), None, "{bytes:?}");
        }
        assert_eq!(Message::of(b"C\0"), None);
    }

    #[test]
    fn a_table_tells_its_columns() {
        let bytes =
            b"R\0\0\0\x07public\0orders\0f\0\x02\x01id\0\0\0\0\x14\xff\xff\xff\xff\0day\0\0\0\x04\x3a\xff\xff\xff\xff";
        let Some(Message::Table(told)) = Message::of(bytes) else { panic!() };
        assert_eq!((told.table, told.is_told_whole, told.columns), (TABLE, true, vec!["id", "day"]));
        assert_eq!(told.identity, [true, false]);
    }
}
