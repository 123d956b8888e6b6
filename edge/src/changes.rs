//! What a transaction changes, by the keys whose rows it changes.
use crate::group::Cells;
use crate::key::{self, Key};
use crate::pgoutput::Cell;
use crate::tables::{Rows, Table};
use std::collections::HashMap;

/// A row by its view and the texts of its identity, which are written as a key is.
pub type RowId = Key;

#[derive(Clone, Debug)]
pub enum Delta {
    /// A row that a key gets or loses, by all that is told of it.
    Row { is_plus: bool, row: Box<str> },
    /// The same, by what its group needs of it.
    Cells { is_plus: bool, cells: Cells },
    /// A row that a key gets, in place of the one with its identity: none where it isn't told whole.
    Comes { id: RowId, row: Option<Box<str>> },
}

/// Where a row is after a transaction.
#[derive(Clone, Debug, PartialEq, Eq)]
pub enum Place {
    Gone,
    Of(Key),
    /// In its key, which isn't told: a long text that stays.
    Untold,
}

#[derive(Debug, Default)]
pub struct Changes {
    pub of_keys: HashMap<Key, Vec<Delta>>,
    /// Those rows that are told by their identity.
    pub rows: HashMap<RowId, Place>,
}

/// Where a table has the columns of a view.
pub struct Columns {
    pub key: Vec<usize>,
    pub row: Vec<usize>,
    pub identity: Vec<usize>,
}

impl Changes {
    pub fn is_empty(&self) -> bool {
        self.of_keys.is_empty() && self.rows.is_empty()
    }

    pub fn of(&self, key: &Key) -> &[Delta] {
        self.of_keys.get(key).map_or(&[], Vec::as_slice)
    }

    /// What a change of a row changes of a view. None where that isn't told.
    pub fn tell(&mut self, table: &Table, columns: &Columns, was: Option<&[Cell]>, is: Option<&[Cell]>) -> Option<()> {
        if let Rows::Identified(_) = table.rows {
            return self.moves(table, columns, was, is);
        }
        for (is_plus, cells) in [(false, was), (true, is)] {
            let Some(cells) = cells else { continue };
            let key = key::written(&table.view, &texts(cells, &columns.key)?);
            let told = told(cells, &columns.row)?;
            let delta = match &table.rows {
                Rows::Grouped(form) => Delta::Cells { is_plus, cells: form.cells(&told) },
                _ => Delta::Row { is_plus, row: table.shape.row(told.into_iter()) },
            };
            self.of_keys.entry(key).or_default().push(delta);
        }
        Some(())
    }

    fn moves(&mut self, table: &Table, columns: &Columns, was: Option<&[Cell]>, is: Option<&[Cell]>) -> Option<()> {
        let id = |cells: &[Cell]| Some(key::written(&table.view, &texts(cells, &columns.identity)?));
        let was = was.map_or(Some(None), |cells| id(cells).map(Some))?;
        let before = was.as_ref().and_then(|was| self.rows.insert(RowId::clone(was), Place::Gone));
        let Some(cells) = is else { return Some(()) };
        let id = id(cells)?;
        let key = match (texts(cells, &columns.key), before) {
            (Some(texts), _) => key::written(&table.view, &texts),
            (None, Some(Place::Of(key))) => key,
            (None, _) => {
                was.into_iter().chain([id]).for_each(|id| _ = self.rows.insert(id, Place::Untold));
                return Some(());
            }
        };
        let row = told(cells, &columns.row).map(|cells| table.shape.row(cells.into_iter()));
        self.of_keys.entry(Key::clone(&key)).or_default().push(Delta::Comes { id: RowId::clone(&id), row });
        self.rows.insert(id, Place::Of(key));
        Some(())
    }
}

fn texts<'a>(cells: &[Cell<'a>], places: &[usize]) -> Option<Vec<&'a str>> {
    told(cells, places)?.into_iter().collect()
}

/// None where one isn't told.
fn told<'a>(cells: &[Cell<'a>], places: &[usize]) -> Option<Vec<Option<&'a str>>> {
    let told = |place: &usize| match cells.get(*place)? {
        Cell::Text(text) => Some(Some(*text)),
        Cell::Null => Some(None),
        Cell::Untold => None,
    };
    places.iter().map(told).collect()
}

#[cfg(test)]
mod tests {
    use super::Cell::{Null, Text, Untold};
    use super::*;
    use crate::configuration::Encoding;
    use crate::group::{Form, Scale};
    use crate::json::{Kind, Shape};
    use crate::query::Item;
    use crate::snapshot::TableId;
    use std::sync::Arc;

    const COLUMNS: fn() -> Columns = || Columns { key: vec![1], row: vec![1, 2], identity: vec![0] };

    fn table(rows: Rows) -> Table {
        let shape = Shape::new(Encoding::Arrays, vec![("k".into(), Kind::Text), ("c".into(), Kind::Text)]);
        Table { id: TableId(1), view: "v".into(), shape, rows, identity: None, prepare: String::new() }
    }

    fn identified() -> Table {
        table(Rows::Identified(vec!["id".into()]))
    }

    /// What changes tell of a key's rows that come, and of where a row is.
    fn of(changes: &Changes, key: &str, id: &str) -> (Vec<String>, Option<Place>) {
        let row = |delta: &Delta| match delta {
            Delta::Comes { id, row } => format!("{id} {}", row.as_deref().unwrap_or("?")),
            Delta::Row { is_plus, row } => format!("{}{row}", if *is_plus { '+' } else { '-' }),
            Delta::Cells { is_plus, cells } => format!("{}{}", if *is_plus { '+' } else { '-' }, cells.len()),
        };
        (changes.of(&key.into()).iter().map(row).collect(), changes.rows.get(id).cloned())
    }

    #[test]
    fn a_row_goes_by_its_identity() {
        let (mut changes, at) = (Changes::default(), |key: &str| Some(Place::Of(key.into())));
        let was = [Text("1"), Untold, Untold];
        changes.tell(&identified(), &COLUMNS(), Some(&was), Some(&[Text("1"), Text("a"), Null])).unwrap();
        assert_eq!(of(&changes, "v:a", "v:1"), (vec![r#"v:1 ["a",null]"#.into()], at("v:a")));
        // With another identity, of another key.
        changes.tell(&identified(), &COLUMNS(), Some(&was), Some(&[Text("2"), Text("b"), Untold])).unwrap();
        assert_eq!(of(&changes, "v:b", "v:2"), (vec!["v:2 ?".into()], at("v:b")));
        assert_eq!(changes.rows["v:1"], Place::Gone);
        changes.tell(&identified(), &COLUMNS(), Some(&[Text("2"), Untold, Untold]), None).unwrap();
        assert_eq!(changes.rows["v:2"], Place::Gone);
    }

    #[test]
    fn a_key_that_is_not_told_is_the_one_of_before() {
        let (mut changes, was) = (Changes::default(), [Text("1"), Untold, Untold]);
        changes.tell(&identified(), &COLUMNS(), Some(&was), Some(&[Text("2"), Untold, Null])).unwrap();
        assert_eq!([&changes.rows["v:1"], &changes.rows["v:2"]], [&Place::Untold; 2]);
        let mut changes = Changes::default();
        changes.tell(&identified(), &COLUMNS(), None, Some(&[Text("1"), Text("a"), Null])).unwrap();
        changes.tell(&identified(), &COLUMNS(), Some(&was), Some(&[Text("1"), Untold, Null])).unwrap();
        let rows = vec![r#"v:1 ["a",null]"#.into(), "v:1 ?".into()];
        assert_eq!(of(&changes, "v:a", "v:1"), (rows, Some(Place::Of("v:a".into()))));
    }

    #[test]
    fn what_is_not_told_whole_is_no_row_and_no_group() {
        let form = Form { items: vec![(Item::Sum(1), Scale::Decimals(0))], shape: table(Rows::Whole).shape };
        for rows in [Rows::Whole, Rows::Grouped(Arc::new(form))] {
            let (mut changes, table) = (Changes::default(), table(rows));
            let is = [Text("1"), Text("a"), Text("2")];
            assert_eq!(changes.tell(&table, &COLUMNS(), Some(&[Text("1"), Text("a"), Untold]), Some(&is)), None);
            changes.tell(&table, &COLUMNS(), Some(&[Text("1"), Text("b"), Null]), Some(&is)).unwrap();
            assert_eq!((changes.of_keys.len(), changes.of(&"v:a".into()).len()), (2, 1));
        }
    }
}
