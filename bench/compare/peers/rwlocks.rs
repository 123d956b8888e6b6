//! A lock for each key: a find copies the rows out under the lock's shared side.
use crate::{Kind, Map, Row, Rows};
use std::sync::RwLock;

struct Cell {
    kind: Kind,
    rows: Vec<Row>,
}

pub struct Peer(Box<[RwLock<Cell>]>);

impl Map for Peer {
    type Reads = ();
    type Writes = ();

    fn open(keys: usize, _readers: usize) -> (Peer, ()) {
        let hole = || RwLock::new(Cell { kind: Kind::Hole, rows: Vec::new() });
        (Peer((0..keys).map(|_| hole()).collect()), ())
    }

    fn reads(&self) {}

    fn find(&self, _own: &mut (), key: usize, rows: &mut Rows) -> bool {
        let cell = self.0[key].read().unwrap();
        if cell.kind != Kind::Filled {
            return false;
        }
        rows.show(&cell.rows);
        true
    }

    fn ask(&self, key: usize) -> Kind {
        let kind = self.0[key].read().unwrap().kind;
        if kind != Kind::Hole {
            return kind;
        }
        let mut cell = self.0[key].write().unwrap();
        let before = cell.kind;
        if before == Kind::Hole {
            cell.kind = Kind::Asked;
        }
        before
    }

    fn kind(&self, key: usize) -> Kind {
        self.0[key].read().unwrap().kind
    }

    fn copy(&self, _own: &mut (), key: usize, pile: &mut Vec<Row>) -> bool {
        let cell = self.0[key].read().unwrap();
        pile.extend_from_slice(&cell.rows);
        cell.kind == Kind::Filled
    }

    fn put(&self, _own: &mut (), key: usize, rows: &[Row]) {
        let mut cell = self.0[key].write().unwrap();
        cell.kind = Kind::Filled;
        cell.rows.clear();
        cell.rows.extend_from_slice(rows);
    }

    fn clear(&self, _own: &mut (), key: usize) {
        let mut cell = self.0[key].write().unwrap();
        cell.kind = Kind::Hole;
        cell.rows = Vec::new();
    }
}
