//! What may happen between an edge and PostgreSQL, step by step: nothing here is left to chance. Each read is of three
//! views: rows that changes tell whole, rows that they tell by their identity, and what a query makes of them.
//!   cases PROGRAM ADDRESS RESTART [CASE]    RESTART is a command that ends PostgreSQL at once and starts it again
mod clients;
mod edges;
mod lasting;
mod operator;
mod writers;
use edge_common::postgres::pq::Connection;
use edges::{last, signal, token, until, Edge};
use std::process::Command;
use std::{env, thread};

struct Case {
    program: String,
    address: String,
    restart: String,
    /// Of an edge's source.
    lines: &'static str,
    base: Connection,
}

/// What happens.
type Run = fn(&mut Case);

const LASTING: &str = "lasting_slot = true";
const CASES: [(&str, &str, Run); 38] = [
    ("log", "", a_commit_that_no_snapshot_sees_yet),
    ("first_snapshot", "", a_commit_that_the_new_slot_does_not_carry),
    ("early", "", an_answer_that_is_older_than_the_slot),
    ("skip", "", an_answer_that_is_ahead_of_the_stream),
    ("moves", "", rows_that_move_behind_a_snapshot),
    ("cut", "", a_stream_that_is_cut),
    ("missed", "", changes_that_a_slot_has_missed),
    ("truncate", "", a_table_that_is_truncated_or_changed),
    ("restart", "", a_server_that_is_restarted),
    ("crash", "", a_server_that_recovers_by_itself),
    ("killed", "", an_edge_that_is_killed),
    ("role", "", a_role_that_may_not_do_it_any_more),
    ("error", "", operator::a_publication_that_is_gone_for_a_while),
    ("text", "", operator::texts_that_are_no_sql),
    ("log_lasting", LASTING, a_commit_that_no_snapshot_sees_yet),
    ("skip_lasting", LASTING, an_answer_that_is_ahead_of_the_stream),
    ("truncate_lasting", LASTING, a_table_that_is_truncated_or_changed),
    ("restart_lasting", LASTING, a_server_that_is_restarted),
    ("crash_lasting", LASTING, a_server_that_recovers_by_itself),
    ("error_lasting", LASTING, operator::a_publication_that_is_gone_for_a_while),
    ("repeats_guard", LASTING, lasting::a_stream_that_goes_on),
    ("halves", LASTING, lasting::a_transaction_that_is_cut_in_two),
    ("emptying", LASTING, lasting::a_slot_that_is_dropped),
    ("limit", LASTING, lasting::a_slot_that_is_too_far_behind),
    ("anew", LASTING, lasting::a_slot_that_another_made_anew),
    ("left", LASTING, lasting::a_slot_that_is_left),
    ("tokens", "", writers::a_write_and_its_token),
    ("texts", "", writers::texts_that_are_no_sql),
    ("page", "", writers::a_web_page_that_writes),
    ("locked", "", writers::a_row_that_another_has_locked),
    ("rest", "", writers::clients_that_wrote_once),
    ("apart", "", writers::writes_and_misses_apart),
    ("hangs", "", writers::a_base_that_hangs),
    ("end", "", writers::an_end_while_a_write_waits_for_a_lock),
    ("turns", "", clients::a_client_that_sends_much_at_once),
    ("threads", "", clients::many_clients_and_few_threads),
    ("miss", "", clients::a_miss_that_waits_for_a_lock),
    ("together", "", clients::keys_that_are_missing_together),
];

fn main() {
    let words: Vec<String> = env::args().collect();
    let [program, address, restart] = [1, 2, 3].map(|place| words[place].clone());
    for (name, lines, run) in CASES.iter().filter(|(name, ..)| words.get(4).is_none_or(|wanted| wanted == name)) {
        // What the case itself writes does not wait for a standby.
        let base = Connection::open(&format!("{address} options='-c synchronous_commit=local'")).unwrap();
        let [program, address, restart] = [&program, &address, &restart].map(String::clone);
        let mut case = Case { program, address, restart, lines, base };
        case.sql("TRUNCATE votes, kept");
        run(&mut case);
        let drop =
            "SELECT pg_drop_replication_slot(slot_name) FROM pg_replication_slots WHERE NOT active AND NOT temporary";
        until("no slot is left", || {
            case.sql(drop);
            case.sql("SELECT count(*) FROM pg_replication_slots") == "0"
        });
        println!("cases: {name}");
    }
}

impl Case {
    fn edge(&self) -> Edge {
        Edge::start(&self.program, &self.address, self.lines)
    }

    fn following(&self) -> Edge {
        let edge = self.edge();
        edge.follows();
        edge
    }

    fn sql(&mut self, sql: &str) -> String {
        last(&mut self.base, sql).concat().concat()
    }

    /// A write, and the token of a read that is to see it.
    fn write(&mut self, sql: &str) -> String {
        self.sql(sql);
        token(&mut self.base)
    }

    fn rows(&mut self, article: &str) -> String {
        let rows =
            format!("SELECT voter || ':' || weight FROM votes WHERE article = '{article}' ORDER BY voter, weight");
        last(&mut self.base, &rows).concat().join(" ")
    }

    /// The process that sends changes.
    fn walsender(&mut self) -> String {
        let mut walsender = String::new();
        until("a connection has a slot", || {
            walsender = self.sql("SELECT active_pid FROM pg_replication_slots");
            !walsender.is_empty()
        });
        walsender
    }

    /// From now on each other commit waits for a standby that never comes: it is in the log, and no snapshot sees it.
    fn commits_wait(&mut self) {
        self.sql("ALTER SYSTEM SET synchronous_standby_names = 'nobody'");
        self.sql("SELECT pg_reload_conf()");
    }

    fn commits_go_on(&mut self) {
        self.sql("ALTER SYSTEM RESET synchronous_standby_names");
        self.sql("SELECT pg_reload_conf()");
    }

    /// Writes of which the last one's commit waits. PostgreSQL's processes hear of a setting one by one, so the first may not
    /// wait yet. How many they were.
    fn waiting(&mut self, sql: impl Fn(u64) -> String) -> (u64, thread::JoinHandle<()>) {
        for number in 10.. {
            let (address, sql) = (self.address.clone(), sql(number));
            let writer = thread::spawn(move || _ = last(&mut Connection::open(&address).unwrap(), &sql));
            let waits = "SELECT count(*) FROM pg_stat_activity WHERE wait_event = 'SyncRep'";
            until("the commit waits or is done", || writer.is_finished() || self.sql(waits) == "1");
            if !writer.is_finished() {
                return (number - 9, writer);
            }
        }
        unreachable!()
    }

    fn waiting_row(&mut self, article: &str) -> (u64, thread::JoinHandle<()>) {
        self.waiting(|voter| format!("INSERT INTO votes VALUES ('{article}', {voter}, 1)"))
    }

    /// Until the new slot's maker waits for a transaction.
    fn waits_for(&mut self, xid: &str) {
        let sql = format!("SELECT count(*) FROM pg_locks WHERE NOT granted AND transactionid::text = '{xid}'");
        until("the slot waits for a transaction", || self.sql(&sql) == "1");
    }

    fn open_transaction(&self) -> (Connection, String) {
        let mut open = Connection::open(&self.address).unwrap();
        let xid = last(&mut open, "BEGIN; SELECT pg_current_xact_id()::xid").concat().concat();
        (open, xid)
    }
}

fn a_commit_that_no_snapshot_sees_yet(case: &mut Case) {
    let edge = case.following();
    case.commits_wait();
    let (rows, writer) = case.waiting_row("g");
    until("the stream has brought the commit", || edge.count("transactions") >= rows);
    let (row, seen) = (format!("{}:1", rows + 9), case.rows("g"));
    assert!(!seen.contains(&row), "no snapshot is to see {row}, and one sees {seen}");
    let all = format!("{seen} {row}").trim().to_owned();
    assert_eq!(edge.get("g", ""), all, "the log has the commit");
    case.commits_go_on();
    writer.join().unwrap();
    let now = case.write("INSERT INTO votes VALUES ('g', 99, 1)");
    assert_eq!(edge.held("g", &now), format!("{all} 99:1"));
    assert_eq!(edge.count("disagreements"), 0);
}

/// The commit lies before the slot's first transaction. Some versions of PostgreSQL let the slot stand before a snapshot
/// sees it, others wait.
fn a_commit_that_the_new_slot_does_not_carry(case: &mut Case) {
    let (mut one, xid_of_one) = case.open_transaction();
    case.sql("INSERT INTO votes VALUES ('h', 1, 1)");
    let edge = case.edge();
    case.waits_for(&xid_of_one);
    // Until the slot stands, misses are answered and nothing is held.
    assert_eq!((edge.get("h", ""), edge.count("keys"), edge.count("following")), ("1:1".into(), 0, 0));
    let (mut two, xid_of_two) = case.open_transaction();
    one.run("ROLLBACK").unwrap();
    case.waits_for(&xid_of_two);
    case.commits_wait();
    let (rows, writer) = case.waiting_row("h");
    two.run("ROLLBACK").unwrap();
    let waits =
        "SELECT count(*) FROM pg_stat_activity WHERE backend_type = 'walsender' AND wait_event = 'transactionid'";
    until("the slot stands or waits", || edge.count("following") == 1 || case.sql(waits) == "1");
    let is_following = edge.count("following") == 1;
    let client = edge.asks("GET votes:h");
    until("PostgreSQL is asked again, or the client has its answer", || {
        client.is_finished() || edge.count("again") > 2
    });
    case.commits_go_on();
    writer.join().unwrap();
    let (told, row) = (client.join().unwrap(), format!("[{},1]", rows + 9));
    assert!(told.contains(&row) || !is_following, "the slot began with {row}, and the edge tells {told}");
    edge.follows();
    assert_eq!(edge.get("h", ""), case.rows("h"));
}

/// Its statement has its snapshot before it waits for a lock. The answer comes after another one that saw all that the slot
/// began with.
fn an_answer_that_is_older_than_the_slot(case: &mut Case) {
    case.sql("ALTER DATABASE cases SET default_transaction_isolation = 'repeatable read'");
    let (mut open, xid) = case.open_transaction();
    last(&mut open, "INSERT INTO votes VALUES ('o', 1, 1)");
    let edge = Edge::start(&case.program, &case.address, "connections = 2\ndeadline = 60");
    case.waits_for(&xid);
    let connections = "SELECT count(*) FROM pg_stat_activity WHERE query LIKE 'PREPARE view_%'";
    until("each connection was used", || edge.get("p", "").is_empty() && case.sql(connections) == "2");
    let address = case.address.clone();
    let locks = thread::spawn(move || {
        last(&mut Connection::open(&address).unwrap(), "BEGIN; LOCK TABLE votes; COMMIT");
    });
    let waits = |query: &str| {
        format!("SELECT pid FROM pg_stat_activity WHERE wait_event = 'relation' AND query LIKE '{query}%'")
    };
    until("the lock is waited for", || !case.sql(&waits("BEGIN; LOCK")).is_empty());
    let client = edge.asks("GET votes:o");
    until("the upquery waits behind it", || !case.sql(&waits("PREPARE view_")).is_empty());
    let upquery = case.sql(&waits("PREPARE view_"));
    signal("STOP", &upquery);
    open.run("COMMIT").unwrap();
    locks.join().unwrap();
    edge.follows();
    assert_eq!((edge.get("p", ""), edge.held("p", "")), (String::new(), String::new()));
    signal("CONT", &upquery);
    // It was taken back when the slot stood, and asked for anew.
    assert_eq!((client.join().unwrap(), edge.get("o", "")), ("[[1,1]]".into(), "1:1".into()));
    assert_eq!(edge.held("o", ""), "1:1");
    case.sql("ALTER DATABASE cases RESET default_transaction_isolation");
}

fn an_answer_that_is_ahead_of_the_stream(case: &mut Case) {
    let edge = case.following();
    let walsender = case.walsender();
    signal("STOP", &walsender);
    let now = case.write("INSERT INTO votes VALUES ('s', 1, 1)");
    assert_eq!(edge.get("s", ""), "1:1");
    // A client takes the token of what it read to another edge.
    let told = edge.ask("READ votes:s");
    signal("CONT", &walsender);
    assert_eq!(edge.held("s", &now), "1:1", "the stream's transaction is skipped");
    assert_eq!(edge.count("skips"), 3);
    let (rows, place) = told.split_once(' ').expect("a read answers with a token");
    let is_behind = case.sql(&format!("SELECT '{place}'::pg_lsn < '{now}'"));
    assert_eq!((rows, is_behind.as_str()), ("[[1,1]]", "f"), "the token is not before what was read");
}

/// From a key that is held, to one that is asked for meanwhile: some are in its rows, and others in the log.
fn rows_that_move_behind_a_snapshot(case: &mut Case) {
    case.sql("INSERT INTO votes SELECT 'from', it, 1 FROM generate_series(1, 60) AS it");
    let edge = case.following();
    edge.get("from", "");
    case.commits_wait();
    let (count, writer) = case.waiting(|voter| format!("UPDATE votes SET article = 'to' WHERE voter = {voter}"));
    until("the stream has brought the commit", || edge.count("transactions") >= count);
    let all = (10..10 + count).map(|voter| format!("{voter}:1")).collect::<Vec<_>>().join(" ");
    assert_eq!(edge.get("to", ""), all);
    assert!(!edge.held("from", "").contains(&format!("{}:1", 9 + count)));
    case.commits_go_on();
    writer.join().unwrap();
    let now = case.write("UPDATE votes SET article = 'from', weight = 2 WHERE article = 'to'");
    assert_eq!((edge.get("to", &now), edge.get("from", "")), (String::new(), case.rows("from")));
    assert_eq!(edge.count("disagreements"), 0);
}

fn a_stream_that_is_cut(case: &mut Case) {
    let edge = case.following();
    assert_eq!(edge.get("r", ""), "");
    let now = case.write("INSERT INTO votes VALUES ('r', 1, 1)");
    assert_eq!(edge.held("r", &now), "1:1");
    let walsender = case.walsender();
    case.sql(&format!("SELECT pg_terminate_backend({walsender})"));
    let now = case.write("INSERT INTO votes VALUES ('r', 2, 1)");
    until("the edge begins anew", || edge.count("losses") == 1);
    assert_eq!(edge.get("r", &now), "1:1 2:1");
}

fn changes_that_a_slot_has_missed(case: &mut Case) {
    let edge = case.following();
    assert_eq!(edge.get("e", ""), "");
    let walsender = case.walsender();
    edge.signal("STOP");
    case.sql(&format!("SELECT pg_terminate_backend({walsender})"));
    until("the slot goes", || case.sql("SELECT count(*) FROM pg_replication_slots") == "0");
    let now = case.write("INSERT INTO votes VALUES ('e', 1, 1)");
    edge.signal("CONT");
    assert_eq!(edge.get("e", &now), "1:1", "what is held is of before the loss");
    assert_eq!(edge.count("losses"), 1);
}

fn a_table_that_is_truncated_or_changed(case: &mut Case) {
    case.sql("INSERT INTO votes VALUES ('t', 1, 1)");
    let edge = case.following();
    assert_eq!(edge.get("t", ""), "1:1");
    let now = case.write("TRUNCATE votes, kept");
    assert_eq!(edge.get("t", &now), "");
    case.sql("INSERT INTO votes VALUES ('t', 1, 1)");
    let changes = "ALTER weight TYPE bigint USING weight + 6";
    let now = case.write(&format!("BEGIN; ALTER TABLE votes {changes}; ALTER TABLE kept {changes}; COMMIT"));
    assert_eq!(edge.get("t", &now), "1:7");
    let now = case.write("ALTER TABLE votes ADD remark text");
    assert_eq!(edge.get("t", &now), "1:7");
    let now = case.write("INSERT INTO votes VALUES ('t', 2, 2, 'late')");
    assert_eq!(edge.get("t", &now), "1:7 2:2");
    let now = case.write("ALTER TABLE votes DROP remark");
    assert_eq!(edge.get("t", &now), "1:7 2:2");
    // Without the trigger, an edge that was told the tables' columns is told of other ones with the next row.
    case.sql("INSERT INTO votes VALUES ('t', 3, 3)");
    case.sql("ALTER EVENT TRIGGER edge_changed DISABLE");
    let changes = "ALTER weight TYPE int USING weight + 1";
    case.sql(&format!("BEGIN; ALTER TABLE votes {changes}; ALTER TABLE kept {changes}; COMMIT"));
    case.sql("ALTER EVENT TRIGGER edge_changed ENABLE ALWAYS");
    let now = case.write("INSERT INTO votes VALUES ('t', 4, 4)");
    assert_eq!(edge.get("t", &now), "1:8 2:3 3:4 4:4");
    case.sql("ALTER EVENT TRIGGER edge_changed DISABLE");
    case.sql("ALTER TABLE kept REPLICA IDENTITY FULL");
    case.sql("ALTER EVENT TRIGGER edge_changed ENABLE ALWAYS");
    let now = case.write("UPDATE votes SET weight = 5 WHERE voter = 4");
    assert_eq!(edge.get("t", &now), "1:8 2:3 3:4 4:5");
    let changes = "ALTER weight TYPE bigint";
    let now = case.write(&format!("BEGIN; ALTER TABLE votes {changes}; ALTER TABLE kept {changes}; COMMIT"));
    assert_eq!(edge.get("t", &now), "1:8 2:3 3:4 4:5");
    case.sql("ALTER TABLE kept REPLICA IDENTITY DEFAULT");
    assert_eq!(edge.count("disagreements"), 0);
}

fn a_server_that_is_restarted(case: &mut Case) {
    let edge = case.following();
    assert_eq!(edge.get("u", ""), "");
    assert!(Command::new("bash").args(["-c", &case.restart]).status().unwrap().success());
    case.base = Connection::open(&case.address).unwrap();
    let now = case.write("INSERT INTO votes VALUES ('u', 1, 1)");
    edge.follows();
    until("the edge begins anew", || edge.count("losses") == 1);
    assert_eq!(edge.get("u", &now), "1:1");
}

/// A snapshot sees a commit that isn't on the disk yet, and is lost where one of PostgreSQL's processes is killed.
fn a_server_that_recovers_by_itself(case: &mut Case) {
    let edge = case.following();
    // Each of them may bring the log to the disk.
    let writers = "SELECT string_agg(pid::text, ' ') FROM pg_stat_activity
        WHERE backend_type IN ('walwriter', 'background writer', 'checkpointer')";
    let writers = case.sql(writers);
    let signal_writers = |name| writers.split(' ').for_each(|writer| signal(name, writer));
    signal_writers("STOP");
    let mut early = Connection::open(&format!("{} options='-c synchronous_commit=off'", case.address)).unwrap();
    last(&mut early, "INSERT INTO votes VALUES ('c', 1, 1)");
    assert_eq!(edge.get("c", ""), "1:1");
    signal("KILL", &last(&mut early, "SELECT pg_backend_pid()").concat().concat());
    until("PostgreSQL ends its other processes", || case.base.run("SELECT 1").is_err());
    signal_writers("CONT");
    until("PostgreSQL is there", || Connection::open(&case.address).map(|base| case.base = base).is_ok());
    assert_eq!(case.rows("c"), "", "the commit is lost");
    let now = case.write("INSERT INTO votes VALUES ('d', 1, 1)");
    until("the edge begins anew", || edge.count("losses") == 1);
    assert_eq!((edge.get("c", &now), edge.get("d", "")), (String::new(), "1:1".into()));
}

fn an_edge_that_is_killed(case: &mut Case) {
    let edge = case.following();
    assert_eq!(edge.get("k", ""), "");
    drop(edge);
    let edge = case.following();
    let now = case.write("INSERT INTO votes VALUES ('k', 1, 1)");
    assert_eq!(edge.get("k", &now), "1:1");
}

fn a_role_that_may_not_do_it_any_more(case: &mut Case) {
    case.sql("CREATE ROLE voter LOGIN REPLICATION BYPASSRLS; GRANT SELECT ON votes, kept TO voter");
    case.sql("ALTER TABLE votes ENABLE ROW LEVEL SECURITY; INSERT INTO votes VALUES ('v', 1, 1)");
    let address = case.address.replace("user=postgres", "user=voter");
    let mut edge = Edge::start(&case.program, &address, "");
    edge.follows();
    assert_eq!(edge.get("v", ""), "1:1");
    // A role from which rows are kept.
    case.sql("ALTER ROLE voter NOBYPASSRLS; INSERT INTO votes VALUES ('w', 1, 1)");
    until("the key is refused", || edge.ask("GET votes:w").contains("row-level security"));
    let walsender = case.walsender();
    case.sql("ALTER ROLE voter NOREPLICATION");
    case.sql(&format!("SELECT pg_terminate_backend({walsender})"));
    assert_eq!(edge.ends(), Some(1));
    edge.says("must be superuser or replication role");
    case.sql("ALTER TABLE votes DISABLE ROW LEVEL SECURITY; DROP OWNED BY voter; DROP ROLE voter");
}
