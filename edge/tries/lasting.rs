//! A slot that lasts: after a cut it goes on, and what comes again counts once; what it lacks is a loss; and nobody else's of
//! its name is touched.
use crate::edges::{signal, until, Edge};
use crate::Case;
use std::fs;

fn slot(case: &mut Case) -> String {
    case.sql("SELECT slot_name FROM pg_replication_slots")
}

/// Its connection is ended while the edge stands still. The slot's name.
fn cut_off(case: &mut Case, edge: &Edge) -> String {
    let (slot, walsender) = (slot(case), case.walsender());
    edge.signal("STOP");
    case.sql(&format!("SELECT pg_terminate_backend({walsender})"));
    until("nobody has the slot", || case.sql("SELECT active FROM pg_replication_slots") == "f");
    slot
}

fn dropped(case: &mut Case, edge: &Edge) -> String {
    let slot = cut_off(case, edge);
    case.sql(&format!("SELECT pg_drop_replication_slot('{slot}')"));
    slot
}

pub fn a_stream_that_goes_on(case: &mut Case) {
    let edge = case.following();
    assert_eq!(edge.get("r", ""), "");
    let (slot_before, mut all) = (slot(case), String::new());
    // PostgreSQL tells again what it wasn't told of in time.
    for voter in 1.. {
        let now = case.write(&format!("INSERT INTO votes VALUES ('r', {voter}, 1)"));
        all = format!("{all} {voter}:1").trim().into();
        assert_eq!(edge.held("r", &now), all, "what is repeated counts once");
        if voter > 3 && edge.count("repeats") > 0 {
            break;
        }
        let walsender = case.walsender();
        case.sql(&format!("SELECT pg_terminate_backend({walsender})"));
        until("the edge comes again", || case.walsender() != walsender);
    }
    // What is asked for after the cut is held too.
    edge.follows();
    assert_eq!((edge.get("s", ""), edge.held("s", "")), (String::new(), String::new()));
    assert_eq!((edge.count("losses"), edge.count("disagreements"), slot(case)), (0, 0, slot_before));
    edge.signal("TERM");
    until("the slot is dropped", || case.sql("SELECT count(*) FROM pg_replication_slots") == "0");
}

/// A transaction that wasn't whole when its connection ended comes whole again.
pub fn a_transaction_that_is_cut_in_two(case: &mut Case) {
    let edge = case.following();
    assert_eq!(edge.get("b", ""), "");
    let slot_before = slot(case);
    let rows = "INSERT INTO votes SELECT 'b', it, 1 FROM generate_series(1, 20000) AS it";
    let (walsender, begun) = (case.walsender(), edge.count("transactions"));
    case.sql(rows);
    case.sql(&format!("SELECT pg_terminate_backend({walsender})"));
    let now = case.write("DELETE FROM votes WHERE article = 'b' AND voter < 19999");
    assert_eq!(edge.held("b", &now), "19999:1 20000:1");
    assert!(edge.count("transactions") > begun + 1);
    assert_eq!((edge.count("losses"), edge.count("disagreements"), slot(case)), (0, 0, slot_before));
}

pub fn a_slot_that_is_dropped(case: &mut Case) {
    let edge = case.following();
    assert_eq!(edge.get("e", ""), "");
    dropped(case, &edge);
    let now = case.write("INSERT INTO votes VALUES ('e', 1, 1)");
    edge.signal("CONT");
    assert_eq!(edge.get("e", &now), "1:1", "what is held is of before the loss");
    assert_eq!(edge.count("losses"), 1);
}

/// PostgreSQL keeps no more of its log for a slot than it is told.
pub fn a_slot_that_is_too_far_behind(case: &mut Case) {
    let edge = case.following();
    assert_eq!(edge.get("l", ""), "");
    case.sql("ALTER SYSTEM SET max_slot_wal_keep_size = '1MB'");
    case.sql("SELECT pg_reload_conf()");
    let slot_before = cut_off(case, &edge);
    let now = case.write("INSERT INTO votes VALUES ('l', 1, 1)");
    let megabytes = "SELECT pg_logical_emit_message(false, 'much', repeat('x', 1000000)) FROM generate_series(1, 20)";
    until("the slot is lost", || {
        [megabytes, "SELECT pg_switch_wal()", "CHECKPOINT"].iter().for_each(|sql| _ = case.sql(sql));
        case.sql("SELECT wal_status FROM pg_replication_slots") == "lost"
    });
    edge.signal("CONT");
    assert_eq!(edge.get("l", &now), "1:1");
    edge.follows();
    assert_eq!((edge.count("losses"), slot(case) != slot_before), (1, true));
    assert_eq!(case.sql("SELECT count(*) FROM pg_replication_slots"), "1", "the slot that is lost is dropped");
    case.sql("ALTER SYSTEM RESET max_slot_wal_keep_size");
    case.sql("SELECT pg_reload_conf()");
}

/// What came before that one is in no slot.
pub fn a_slot_that_another_made_anew(case: &mut Case) {
    for make in ["logical_replication_slot('{}', 'pgoutput')", "physical_replication_slot('{}')"] {
        case.sql("TRUNCATE votes, kept");
        let edge = case.following();
        assert_eq!(edge.get("n", ""), "");
        let slot = dropped(case, &edge);
        case.sql("INSERT INTO votes VALUES ('n', 1, 1)");
        case.sql(&format!("SELECT pg_create_{}", make.replace("{}", &slot)));
        let now = case.write("INSERT INTO votes VALUES ('n', 2, 2)");
        edge.signal("CONT");
        assert_eq!(edge.get("n", &now), "1:1 2:2");
        assert_eq!((edge.count("losses"), edge.count("disagreements")), (1, 0));
        edge.signal("TERM");
        let others = format!("SELECT count(*) FROM pg_replication_slots WHERE slot_name <> '{slot}'");
        until("the edge's slot is dropped", || case.sql(&others) == "0");
        case.sql(&format!("SELECT pg_drop_replication_slot('{slot}')"));
    }
}

pub fn a_slot_that_is_left(case: &mut Case) {
    let mut edge = case.following();
    let folder = case.sql("SHOW data_directory");
    let server = fs::read_to_string(format!("{folder}/postmaster.pid")).unwrap();
    let server = server.lines().next().unwrap();
    let slot = slot(case);
    signal("STOP", server);
    edge.signal("TERM");
    assert_eq!(edge.ends(), Some(0));
    signal("CONT", server);
    edge.says(&format!("the slot {slot} stays, and is an operator's to drop: it doesn't answer"));
}
