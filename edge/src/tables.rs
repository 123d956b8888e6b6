//! The views' tables as they are in the database now.
use crate::base;
use crate::configuration::View;
use crate::group::{Form, Scale};
use crate::json::{Kind, Shape};
use crate::pq::{quoted, Connection, Fault};
use crate::query::Item;
use crate::snapshot::TableId;
use std::sync::Arc;

pub struct Table {
    pub id: TableId,
    /// The view's name.
    pub view: String,
    pub shape: Shape,
    pub rows: Rows,
    /// The columns of the row that was that a change tells; none where it tells all.
    pub identity: Option<Vec<String>>,
    /// Makes the statement that asks for the rows of many keys.
    pub prepare: String,
}

/// How a change finds what is held of a row.
pub enum Rows {
    Whole,
    /// By these columns.
    Identified(Vec<String>),
    /// They are in a group, and none is held by itself.
    Grouped(Arc<Form>),
}

/// PostgreSQL's name of a column's type, and that of which it is a domain or the same.
type Type = (String, String);

/// The columns of a table that tell a row that was, where not all do: those of an index.
pub const IDENTITY: &str = "SELECT attname FROM pg_class JOIN pg_index ON indrelid = pg_class.oid
    JOIN pg_attribute ON attrelid = pg_class.oid AND attnum = ANY (indkey[0:indnkeyatts - 1])
    WHERE pg_class.oid = source AND indimmediate AND indisvalid
    AND (relreplident = 'd' AND indisprimary OR relreplident = 'i' AND indisreplident)";

/// The tables of views, in their order. The connection has one text of each value from here on.
pub fn of_views(views: &[View], connection: &mut Connection) -> Result<Vec<Table>, Fault> {
    let id = |view: &View| {
        let of = "SELECT oid, format('%I.%I', nspname, relname)
            FROM (SELECT oid AS namespace, nspname FROM pg_namespace) AS it JOIN pg_class ON relnamespace = namespace
            WHERE pg_class.oid = to_regclass($1)";
        let mut table = connection.run_with(of, &[&view.table])?;
        table.pop().ok_or_else(|| Fault::from(format!("there is no table {}", view.table)))
    };
    let ids: Vec<_> = views.iter().map(id).collect::<Result<_, _>>()?;
    base::one_text(connection)?;
    let found = |((number, view), id): ((usize, &View), Vec<String>)| table(number, view, &id, connection);
    views.iter().enumerate().zip(ids).map(found).collect()
}

fn table(number: usize, view: &View, id: &[String], connection: &mut Connection) -> Result<Table, Fault> {
    let [id, name] = id else { return Err(String::from("a table has a number and a name").into()) };
    let [key, columns] = [&view.key, &view.columns].map(|names| types(names, id, connection));
    let (key, columns) = (key?, columns?);
    let identity = connection.run_with(&format!("{IDENTITY} ORDER BY attnum").replace("source", "$1::oid"), &[id])?;
    let identity = Some(identity.concat()).filter(|columns| !columns.is_empty());
    let shape = shape(view, &key, &columns);
    let rows = match &identity {
        _ if view.is_query() => Rows::Grouped(Arc::new(Form { items: items(view, &columns), shape: shape.clone() })),
        Some(identity) => Rows::Identified(identity.clone()),
        None => Rows::Whole,
    };
    let prepare = statement(number, view, name, &key, &rows);
    // Where it can't be asked so, as where a type has no order, that is known here.
    connection.run(&prepare)?;
    connection.run("DEALLOCATE ALL")?;
    let id = TableId(id.parse().map_err(|_| format!("{id} is no table's number"))?);
    Ok(Table { id, view: view.name.clone(), shape, rows, identity, prepare })
}

fn shape(view: &View, key: &[Type], columns: &[Type]) -> Shape {
    let kind = |item: &Item| match item {
        Item::Key(place) => Kind::of(&key[*place].1),
        Item::Max(place) => Kind::of(&columns[*place].1),
        Item::Count(_) | Item::Sum(_) => Kind::Number,
    };
    let of_items = view.items.iter().map(|(name, item)| (name.clone(), kind(item)));
    let of_columns = view.columns.iter().cloned().zip(columns.iter().map(|(_, base)| Kind::of(base)));
    Shape::new(view.encoding, if view.is_query() { of_items.collect() } else { of_columns.collect() })
}

fn items(view: &View, columns: &[Type]) -> Vec<(Item, Scale)> {
    let scale = |item: Item| match item {
        Item::Sum(place) | Item::Max(place) => Scale::of(&columns[place].0),
        Item::Key(_) | Item::Count(_) => Scale::Others,
    };
    view.items.iter().map(|(_, item)| (*item, scale(*item))).collect()
}

fn types(columns: &[String], id: &str, connection: &mut Connection) -> Result<Vec<Type>, Fault> {
    let sql = "SELECT format_type(atttypid, atttypmod), format_type(coalesce(nullif(typbasetype, 0), atttypid), NULL)
        FROM pg_attribute JOIN pg_type ON pg_type.oid = atttypid
        WHERE attrelid = $1::oid AND attname = $2 AND attnum > 0 AND NOT attisdropped";
    let of = |column: &String| {
        let mut table = connection.run_with(sql, &[id, column])?;
        let line = table.pop().ok_or_else(|| Fault::from(format!("there is no column {column}")))?;
        Ok((line[0].clone(), line[1].clone()))
    };
    columns.iter().map(of).collect()
}

pub fn statement_of(view: usize) -> String {
    format!("view_{view}")
}

/// Its parameters are arrays, one of each column of the key. It tells the number of the asked key, what the statement
/// saw, whether there is a row, the key as PostgreSQL writes it, and the row with its identity, or the group. A row is of
/// a key where its texts are the key's, also where other texts are equal for PostgreSQL, as of 1.0 and 1.00.
fn statement(number: usize, view: &View, table: &str, key: &[Type], rows: &Rows) -> String {
    let column = |name: &String| format!("it.\"{}\"", name.replace('"', "\"\""));
    let casts: Vec<_> = key.iter().enumerate().map(|(place, (of, _))| format!("asked.key_{place}::{of}")).collect();
    let is_same = view.key.iter().zip(&casts).enumerate().map(|(place, (name, cast))| {
        let column = column(name);
        // Of a query's key no value has two texts.
        let has_text = format!(" AND format('%s', {column}) = asked.key_{place}");
        format!("{column} = {cast}{}", if view.is_query() { "" } else { &has_text })
    });
    let is_same = is_same.collect::<Vec<_>>().join(" AND ");
    let columns = |names: &[String]| names.iter().map(column).collect::<Vec<_>>();
    let of_rows = || format!("LEFT JOIN ONLY {table} AS it ON {is_same}");
    let (is_there, cells, from) = match rows {
        Rows::Whole => ("it.ctid IS NOT NULL", columns(&view.columns), of_rows()),
        Rows::Identified(identity) => {
            ("it.ctid IS NOT NULL", [columns(&view.columns), columns(identity)].concat(), of_rows())
        }
        Rows::Grouped(form) => {
            let columns = columns(&view.columns);
            let of = |(item, _): &(Item, Scale)| match *item {
                Item::Key(_) => None,
                Item::Count(column) => Some(format!("count({}), NULL", column.map_or("*", |place| &columns[place]))),
                Item::Sum(place) => Some(format!("count({0}), sum({0})", columns[place])),
                Item::Max(place) => Some(format!("count({0}), max({0})", columns[place])),
            };
            let cells: Vec<_> = ["count(*)".into()].into_iter().chain(form.items.iter().filter_map(of)).collect();
            let names: Vec<_> = (0..2 * cells.len() - 1).map(|place| format!("cell_{place}")).collect();
            let group = format!("SELECT {} FROM ONLY {table} AS it WHERE {is_same}", cells.join(", "));
            let from = format!("CROSS JOIN LATERAL ({group}) AS it ({})", names.join(", "));
            ("it.cell_0 > 0", names, from)
        }
    };
    let names: Vec<_> = (0..key.len()).map(|place| format!("key_{place}")).collect();
    let arrays: Vec<_> = (1..=key.len()).map(|place| format!("${place}")).collect();
    format!(
        "PREPARE {} ({}) AS SELECT asked.place, pg_current_snapshot(), pg_current_wal_insert_lsn(),
        pg_size_bytes(current_setting('wal_segment_size')), {}::regclass::oid, {is_there}, {}
        FROM unnest({}) WITH ORDINALITY AS asked ({}, place) {from} ORDER BY asked.place",
        statement_of(number),
        vec!["text[]"; key.len()].join(", "),
        quoted(table),
        casts.into_iter().chain(cells).collect::<Vec<_>>().join(", "),
        arrays.join(", "),
        names.join(", "),
    )
}
