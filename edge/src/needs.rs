//! What an edge needs of its database so that the stream brings each change of each view, and the SQL that makes it so.
use crate::configuration::{Configuration, View};
use crate::pq::{Connection, Fault};
use crate::query::Item;
use crate::tables::IDENTITY;
use crate::writes;
use Sql::{Holds, NoColumn, Other};

/// Something that an edge needs and that isn't there.
pub struct Lack {
    pub says: String,
    /// What makes it so, or a line of comment where no statement does.
    pub sql: String,
}

/// What is lacking is told by its SQL as a text, which is NULL or empty where nothing is.
enum Sql {
    /// A condition that needs to hold.
    Holds(&'static str),
    /// Of each column of the view: what none may be.
    NoColumn(&'static str),
    /// What the table is, where it may not be.
    Other(&'static str),
}

/// What it asks, what is said where something lacks, and what mends it. `{what}` stands for what lacks, for one line after
/// another where there are several.
type Need = (Sql, &'static str, &'static str);

/// The commands that may change what a view has without a change of a row.
macro_rules! tags {
    () => {
        "'ALTER TABLE', 'DROP TABLE', 'CREATE TABLE', 'ALTER PUBLICATION', 'DROP PUBLICATION', 'ALTER SCHEMA',
        'DROP SCHEMA', 'ALTER TYPE', 'DROP TYPE', 'ALTER DOMAIN', 'DROP DOMAIN', 'DROP EXTENSION', 'DROP OWNED'"
    };
}

/// Of the database. `{publication}` and `{role}` stand for names.
const OF_DATABASE: [Need; 7] = [
    (
        Holds("current_setting('server_encoding') = 'UTF8' AND current_setting('client_encoding') = 'UTF8'"),
        "the database and its clients need the encoding UTF8",
        "-- A database is made with its encoding: CREATE DATABASE name ENCODING 'UTF8'",
    ),
    (
        Holds("current_setting('wal_level') = 'logical'"),
        "the setting wal_level needs to be logical",
        "ALTER SYSTEM SET wal_level = logical; -- and start PostgreSQL anew",
    ),
    (
        Holds("current_setting('max_slot_wal_keep_size') <> '-1'"),
        "PostgreSQL keeps any amount of its log for an edge that is gone: the setting max_slot_wal_keep_size is -1",
        "ALTER SYSTEM SET max_slot_wal_keep_size = '10GB'; SELECT pg_reload_conf();",
    ),
    (
        Holds("EXISTS (SELECT FROM pg_roles WHERE rolname = current_user AND (rolreplication OR rolsuper))"),
        "the role {role} may not replicate",
        "ALTER ROLE {role} REPLICATION;",
    ),
    (
        Holds("EXISTS (SELECT FROM pg_publication WHERE pubname = publication)"),
        "there is no publication {publication}",
        "CREATE PUBLICATION {publication};",
    ),
    (
        Holds(
            "NOT EXISTS (SELECT FROM pg_publication
        WHERE pubname = publication AND NOT (pubinsert AND pubupdate AND pubdelete AND pubtruncate))",
        ),
        "the publication {publication} lacks inserts, updates, deletes or truncates",
        "ALTER PUBLICATION {publication} SET (publish = 'insert, update, delete, truncate');",
    ),
    (
        Holds(concat!(
            "EXISTS (SELECT FROM pg_event_trigger WHERE evtname = publication || '_changed' AND evtenabled = 'A'
            AND evttags @> ARRAY[",
            tags!(),
            "])"
        )),
        "no event trigger tells of a table that is changed, which the stream tells no row of",
        concat!(
            "DROP EVENT TRIGGER IF EXISTS {publication}_changed;
CREATE OR REPLACE FUNCTION tell_{publication}() RETURNS event_trigger LANGUAGE plpgsql AS $$
BEGIN
    -- Of new tables those that inherit from another one are told.
    IF tg_tag <> 'CREATE TABLE'
        OR EXISTS (SELECT FROM pg_event_trigger_ddl_commands() AS made JOIN pg_inherits ON inhrelid = made.objid) THEN
        PERFORM pg_logical_emit_message(true, 'edges: changed', '');
    END IF;
END $$;
CREATE EVENT TRIGGER {publication}_changed ON ddl_command_end
    WHEN TAG IN (",
            tags!(),
            ")
    EXECUTE FUNCTION tell_{publication}();
ALTER EVENT TRIGGER {publication}_changed ENABLE ALWAYS;"
        ),
    ),
];

/// Of a view, whose table has the number `source`. `{table}` stands for its name.
const OF_VIEW: [Need; 16] = [
    (Holds("source IS NOT NULL"), "there is no table {table}", "-- The table is the application's to make."),
    (
        Other(
            "SELECT CASE WHEN relispartition THEN 'a partition' WHEN relkind = 'p' THEN 'a partitioned table'
            WHEN relkind IN ('v', 'm') THEN 'a view' WHEN relkind = 'f' THEN 'a foreign table'
            WHEN relkind <> 'r' THEN 'no table' WHEN relpersistence <> 'p' THEN 'an unlogged or temporary table' END
            FROM pg_class WHERE oid = source",
        ),
        "{table} is {what}, and the rows need to be those of one logged table",
        "-- The table is the application's to make.",
    ),
    (NoColumn("attname IS NULL"), "the table lacks a column of the view: {what}", "-- The columns are the application's to make."),
    (
        NoColumn("attgenerated <> ''"),
        "a column of the view is generated, which no change tells: {what}",
        "-- What is generated can't be in a view.",
    ),
    (
        NoColumn("attname = ANY (key) AND NOT attnotnull"),
        "a column of the key may be NULL: {what}",
        "-- ALTER TABLE {table} ALTER {what} SET NOT NULL;",
    ),
    (
        NoColumn("attname = ANY (key) AND (typname IN ('bpchar', 'citext') OR NOT collisdeterministic)"),
        "a column of the key has texts that equal others: {what}",
        "-- The key's texts need a type, as text, and a collation of which each text equals itself alone.",
    ),
    (
        Holds("NOT EXISTS (SELECT FROM pg_inherits WHERE inhparent = source)"),
        "tables inherit from {table}",
        "-- What inherits has rows of its own: SELECT inhrelid::regclass FROM pg_inherits WHERE inhparent = '{table}'::regclass",
    ),
    (
        Holds("has_table_privilege(source, 'SELECT')"),
        "the role {role} may not read the table",
        "GRANT SELECT ON {table} TO {role};",
    ),
    // The policies stand for all others.
    (
        Holds("NOT row_security_active(source)"),
        "row level security hides rows of the table from the role {role}",
        "ALTER ROLE {role} BYPASSRLS;",
    ),
    (
        Holds("is_told_whole OR identity <> '{}' OR NOT has_primary_key"),
        "a change doesn't tell which row was there: REPLICA IDENTITY DEFAULT",
        "ALTER TABLE {table} REPLICA IDENTITY DEFAULT;",
    ),
    (
        Holds("is_told_whole OR identity <> '{}' OR has_primary_key"),
        "a change doesn't tell which row was there, and there is no primary key: REPLICA IDENTITY FULL",
        "ALTER TABLE {table} REPLICA IDENTITY FULL;",
    ),
    (
        Holds("NOT is_query OR is_told_whole OR identity @> (key || columns)"),
        "a change needs to tell the row that was, of which the query takes more than the primary key: REPLICA IDENTITY FULL",
        "ALTER TABLE {table} REPLICA IDENTITY FULL;",
    ),
    (
        NoColumn(
            "is_query AND attname = ANY (key) AND typtype <> 'e' AND NOT (typname = 'numeric' AND atttypmod > 0) AND typname
            NOT IN ('bool', 'int2', 'int4', 'int8', 'oid', 'text', 'varchar', 'uuid', 'date', 'timestamp', 'timestamptz')",
        ),
        "a column of GROUP BY has a type of which a value may have two texts: {what}",
        "-- Such as integers, numeric with a scale, text, dates and times have one.",
    ),
    (
        NoColumn(
            "NOT (typname = 'numeric' AND atttypmod > 0) AND typname NOT IN ('int2', 'int4', 'int8')
            AND (attname = ANY (sums) OR attname = ANY (maxima) AND typname NOT IN ('date', 'timestamp', 'timestamptz'))",
        ),
        "a sum is kept of integers and numeric with a scale, and a maximum of these, dates and timestamps, and not of {what}",
        "-- What is summed needs another type.",
    ),
    (
        Holds(
            "EXISTS (SELECT FROM pg_publication_tables JOIN pg_namespace ON nspname = schemaname
            JOIN pg_class ON relname = tablename AND relnamespace = pg_namespace.oid
            WHERE pubname = publication AND pg_class.oid = source)",
        ),
        "the publication {publication} doesn't have the table",
        "ALTER PUBLICATION {publication} ADD TABLE ONLY {table};",
    ),
    (
        Holds(
            "NOT EXISTS (SELECT FROM pg_publication_rel JOIN pg_publication ON pg_publication.oid = prpubid
            WHERE pubname = publication AND prrelid = source AND (prqual IS NOT NULL OR prattrs IS NOT NULL))",
        ),
        "the publication {publication} has a part of the table: some rows, or some columns",
        "ALTER PUBLICATION {publication} DROP TABLE {table}; ALTER PUBLICATION {publication} ADD TABLE ONLY {table};",
    ),
];

/// What lacks, in the order in which it is to be made.
pub fn lacking(configuration: &Configuration, connection: &mut Connection) -> Result<Vec<Lack>, Fault> {
    let publication = &configuration.source.publication;
    let role = connection.run("SELECT quote_ident(current_user)")?.concat().concat().concat();
    let of_database = select(&OF_DATABASE, "''", "(SELECT $1::text AS publication)");
    let lacks = connection.run_with(&of_database, &[publication])?.remove(0);
    let mut lacks = lacks_of(&OF_DATABASE, &lacks[1..], &[("{publication}", publication), ("{role}", &role)]);
    for view in &configuration.views {
        let line = of_view(view, publication, connection)?;
        let names = [("{publication}", publication.as_str()), ("{role}", &role), ("{table}", &line[0])];
        let mut of_view = lacks_of(&OF_VIEW, &line[1..], &names);
        // Where the table isn't there nothing else holds.
        if line[1..3].iter().any(|what| !what.is_empty()) {
            of_view.truncate(1);
        }
        lacks.extend(of_view.into_iter().map(|it| Lack { says: format!("the view {}: {}", view.name, it.says), ..it }));
    }
    lacks.extend(writes::lacking(&configuration.writes, connection)?);
    Ok(lacks)
}

/// The table's name, and what lacks of each need.
fn of_view(view: &View, publication: &str, connection: &mut Connection) -> Result<Vec<String>, Fault> {
    let of = format!(
        "(SELECT *, ARRAY({IDENTITY}) AS identity,
            EXISTS (SELECT FROM pg_class WHERE oid = source AND relreplident = 'f') AS is_told_whole,
            EXISTS (SELECT FROM pg_index WHERE indrelid = source AND indisprimary AND indimmediate) AS has_primary_key
        FROM (SELECT to_regclass($1)::oid AS source, $2::text AS publication, $3::name[] AS key, $4::name[] AS columns,
            $5::name[] AS sums, $6::name[] AS maxima, $7::boolean AS is_query) AS it)"
    );
    let sql = select(&OF_VIEW, "coalesce(source::regclass::text, $1)", &of);
    let sums = view.columns_of(|item| if let Item::Sum(place) = item { Some(place) } else { None });
    let maxima = view.columns_of(|item| if let Item::Max(place) = item { Some(place) } else { None });
    let [key, columns, sums, maxima] = [&view.key, &view.columns, &sums, &maxima].map(|names| array(names));
    let is_query = view.is_query().to_string();
    let told = [&*view.table, publication, &key, &columns, &sums, &maxima, &is_query];
    connection.run_with(&sql, &told).map(|mut table| table.remove(0))
}

fn select(needs: &[Need], first: &str, of: &str) -> String {
    let lacks = needs.iter().map(|(lacks, ..)| match lacks {
        Holds(condition) => format!("CASE WHEN ({condition}) IS TRUE THEN '' ELSE 'it' END"),
        NoColumn(condition) => format!(
            "(SELECT string_agg(DISTINCT quote_ident(name), E'\\n') FROM unnest(key || columns) AS name
            LEFT JOIN pg_attribute ON attrelid = source AND attname = name AND attnum > 0
            LEFT JOIN pg_type ON pg_type.oid = atttypid LEFT JOIN pg_collation ON pg_collation.oid = attcollation
            WHERE {condition})"
        ),
        Other(sql) => format!("({sql})"),
    });
    format!("SELECT {first}, {} FROM {of} AS it", lacks.collect::<Vec<_>>().join(", "))
}

fn lacks_of(needs: &[Need], lacks: &[String], names: &[(&str, &str)]) -> Vec<Lack> {
    let lacking = needs.iter().zip(lacks).filter(|(_, what)| !what.is_empty());
    lacking.map(|((_, says, sql), what)| lack_of(says, sql, what, names)).collect()
}

fn lack_of(says: &str, sql: &str, what: &str, names: &[(&str, &str)]) -> Lack {
    let named = |text: &str, what: &str| {
        names.iter().fold(text.replace("{what}", what), |text, (word, name)| text.replace(word, name))
    };
    let mut sql: Vec<_> = what.lines().map(|what| named(sql, what)).collect();
    sql.dedup();
    Lack { says: named(says, &what.lines().collect::<Vec<_>>().join(", ")), sql: sql.join("\n") }
}

/// PostgreSQL's text of an array.
pub fn array(names: &[String]) -> String {
    let quoted = |name: &String| format!("\"{}\"", name.replace('\\', "\\\\").replace('"', "\\\""));
    format!("{{{}}}", names.iter().map(quoted).collect::<Vec<_>>().join(","))
}
