//! What is held of a key: its rows, or what a query makes of them.
use crate::changes::{Changes, Delta, Place, RowId};
use crate::configuration::Encoding;
use crate::group::Group;
use crate::json;
use crate::key::{self, Key};
use crate::tables::{Rows, Table};
use std::collections::BTreeMap;

#[derive(Clone, Debug)]
pub enum Content {
    /// Rows of which a change tells all, in ascending order.
    Whole(Vec<Box<str>>),
    /// Rows of which a change tells the identity.
    Identified(BTreeMap<RowId, Box<str>>),
    Grouped(Group),
}

/// Why a content after a change isn't known.
#[derive(Debug, PartialEq, Eq)]
pub enum Lack {
    /// What goes wasn't there.
    Disagreement,
    /// PostgreSQL has to be asked.
    Untold,
}

/// In bytes, about, with what the allocator takes: of a row, and of one that is found by its identity.
const OF_ROW: usize = 48;
const OF_IDENTITY: usize = 192;

impl Content {
    /// What a statement tells of a key: a line of cells for each row, or one for the group. None where that can't be
    /// understood.
    pub fn of(table: &Table, key: &[String], lines: &[&[Option<String>]]) -> Option<Content> {
        let row = |cells: &[Option<String>]| table.shape.row(cells.iter().map(Option::as_deref));
        match &table.rows {
            Rows::Whole => {
                let mut rows: Vec<_> = lines.iter().map(|cells| row(cells)).collect();
                rows.sort();
                Some(Content::Whole(rows))
            }
            Rows::Identified(identity) => {
                let identified = |cells: &&[Option<String>]| {
                    let (cells, id) = cells.split_at_checked(cells.len().checked_sub(identity.len())?)?;
                    let id: Vec<&str> = id.iter().map(Option::as_deref).collect::<Option<_>>()?;
                    Some((key::written(&table.view, &id), row(cells)))
                };
                lines.iter().map(identified).collect::<Option<_>>().map(Content::Identified)
            }
            Rows::Grouped(form) => Group::of(form, key, lines.first().copied()).map(Content::Grouped),
        }
    }

    /// What clients are told of it. None where the key has no row.
    pub fn text(&self, encoding: Encoding) -> Option<Box<str>> {
        let all = |rows: Vec<&str>| (!rows.is_empty()).then(|| json::rows(encoding, &rows));
        match self {
            Content::Whole(rows) => all(rows.iter().map(|row| &**row).collect()),
            Content::Identified(rows) => {
                let mut rows: Vec<&str> = rows.values().map(|row| &**row).collect();
                rows.sort_unstable();
                all(rows)
            }
            Content::Grouped(group) => group.row().map(|row| json::rows(encoding, &[&*row])),
        }
    }

    /// In bytes, about.
    pub fn size(&self) -> usize {
        match self {
            Content::Whole(rows) => rows.iter().map(|row| row.len() + OF_ROW).sum(),
            Content::Identified(rows) => {
                rows.iter().map(|(id, row)| 2 * id.len() + row.len() + OF_ROW + OF_IDENTITY).sum()
            }
            Content::Grouped(group) => group.size(),
        }
    }

    /// Of the rows that have one.
    pub fn ids(&self) -> impl Iterator<Item = &RowId> {
        let rows = if let Content::Identified(rows) = self { Some(rows) } else { None };
        rows.into_iter().flat_map(BTreeMap::keys)
    }

    pub fn has(&self, id: &RowId) -> bool {
        matches!(self, Content::Identified(rows) if rows.contains_key(id))
    }

    /// Whether a transaction changes it.
    pub fn is_of(&self, key: &Key, changes: &Changes) -> bool {
        changes.of_keys.contains_key(key)
            || !changes.rows.is_empty() && self.ids().any(|id| changes.rows.contains_key(id))
    }

    /// What it is after a transaction.
    pub fn changed(&self, key: &Key, changes: &Changes) -> Result<Content, Lack> {
        match self {
            Content::Whole(rows) => whole(rows, changes.of(key)).map(Content::Whole).ok_or(Lack::Disagreement),
            Content::Identified(rows) => identified(rows, key, changes).map(Content::Identified).ok_or(Lack::Untold),
            Content::Grouped(group) => group.changed(changes.of(key)).map(Content::Grouped),
        }
    }
}

/// None where a row that is lost is neither there nor among those that come.
fn whole(rows: &[Box<str>], deltas: &[Delta]) -> Option<Vec<Box<str>>> {
    let of_sign = |wanted: bool| {
        deltas.iter().filter_map(move |delta| match delta {
            Delta::Row { is_plus, row } if *is_plus == wanted => Some(row.clone()),
            _ => None,
        })
    };
    let mut rows: Vec<Box<str>> = rows.iter().cloned().chain(of_sign(true)).collect();
    let mut lost: Vec<Box<str>> = of_sign(false).collect();
    rows.sort();
    lost.sort();
    let mut lost = lost.into_iter().peekable();
    rows.retain(|row| lost.next_if_eq(row).is_none());
    lost.next().is_none().then_some(rows)
}

/// None where a row isn't told whole.
fn identified(rows: &BTreeMap<RowId, Box<str>>, key: &Key, changes: &Changes) -> Option<BTreeMap<RowId, Box<str>>> {
    let stays = |id: &RowId| match changes.rows.get(id) {
        None => Some(true),
        Some(Place::Untold) => None,
        Some(_) => Some(false),
    };
    let kept = rows.iter().filter_map(|(id, row)| match stays(id) {
        Some(false) => None,
        stays => Some(stays.map(|_| (RowId::clone(id), row.clone()))),
    });
    let mut rows: BTreeMap<_, _> = kept.collect::<Option<_>>()?;
    for delta in changes.of(key) {
        let Delta::Comes { id, row } = delta else { continue };
        // It may have gone on since.
        if matches!(changes.rows.get(id), Some(Place::Of(last)) if last == key) {
            rows.insert(RowId::clone(id), row.clone()?);
        }
    }
    Some(rows)
}
