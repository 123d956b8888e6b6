//! Many clients and few threads: none has a thread of its own, and none is kept waiting by what another sends or waits for.
use crate::edges::{last, until, Edge};
use crate::Case;
use edge_common::postgres::pq::Connection;
use std::io::Write;
use std::thread;

const WAITS: &str = "SELECT count(*) FROM pg_stat_activity WHERE wait_event_type = 'Lock'";

/// With one event loop for all clients, and one connection for what they miss.
fn narrow(case: &Case) -> Edge {
    let edge = Edge::listening(&case.program, &case.address, "connections = 1\ndeadline = 60", "workers = 1");
    edge.follows();
    edge
}

fn locked(case: &Case) -> Connection {
    let mut other = Connection::open(&case.address).unwrap();
    last(&mut other, "BEGIN; LOCK TABLE votes");
    other
}

pub fn a_client_that_sends_much_at_once(case: &mut Case) {
    const MANY: usize = 100_000;
    let edge = narrow(case);
    assert_eq!(edge.ask("GET votes:a"), "");
    let (mut much, mut other) = (edge.client(), edge.client());
    assert_eq!((much.ask("PING").unwrap(), other.ask("PING").unwrap()), ("+PONG".into(), "+PONG".into()));
    let before = edge.count("hits");
    // Both have sent before either is heard: one what the system takes meanwhile, and then the rest.
    const FIRST: usize = 5000;
    edge.signal("STOP");
    much.say(&"GET votes:a\r\n".repeat(FIRST)).unwrap();
    let mut stream = much.stream();
    let sends = thread::spawn(move || stream.write_all("GET votes:a\r\n".repeat(MANY - FIRST).as_bytes()).unwrap());
    other.say("GET votes:a\r\nINFO\r\n").unwrap();
    until("the other has sent", || other.has_sent());
    edge.signal("CONT");
    assert_eq!(other.reply().unwrap(), "");
    let info = other.reply().unwrap();
    let hits: u64 = info.lines().find_map(|line| line.strip_prefix("hits:")).unwrap().parse().unwrap();
    assert!(hits - before < 1000, "another is answered after {} commands", hits - before);
    (0..MANY).for_each(|_| assert_eq!(much.reply().unwrap(), ""));
    sends.join().unwrap();
}

pub fn many_clients_and_few_threads(case: &mut Case) {
    let edge = Edge::listening(&case.program, &case.address, "", "workers = 3\nclients = 400");
    edge.follows();
    assert_eq!(edge.get("t", ""), "");
    let before = edge.threads();
    let named = |name: &str| before.iter().filter(|thread| *thread == name).count();
    assert_eq!(["worker", "writer", "upquery", "listener"].map(named), [3, 4, 4, 1]);
    // One place is for who asks for counts.
    let mut clients: Vec<_> = (0..399).map(|_| edge.client()).collect();
    for client in &mut clients {
        assert_eq!(client.ask("GET votes:t").unwrap(), "");
    }
    assert_eq!(edge.threads().len(), before.len());
    let mut last = edge.client();
    assert_eq!(last.ask("PING").unwrap(), "+PONG");
    assert_eq!(edge.client().reply().unwrap(), "-ERR max number of clients reached");
    drop((clients, last));
    until("their places are free", || edge.client().ask("PING").is_ok_and(|told| told == "+PONG"));
}

pub fn a_miss_that_waits_for_a_lock(case: &mut Case) {
    case.sql("INSERT INTO votes VALUES ('h', 1, 1)");
    let edge = narrow(case);
    assert_eq!(edge.get("h", ""), "1:1");
    // A connection for writes is there, whose statements of the table are prepared.
    assert!(edge.ask("NOTE w").starts_with('+'));
    let mut other = locked(case);
    let mut waiting = edge.client();
    waiting.say("GET votes:h\r\nGET votes:n\r\nGET votes:h\r\nPING\r\n").unwrap();
    assert_eq!(waiting.reply().unwrap(), "[[1,1]]");
    until("the miss waits", || case.sql(WAITS) == "1");
    // What is held is answered, a write is done, and a token is waited for, by the same loop.
    assert_eq!(edge.held("h", ""), "1:1");
    let told = edge.ask("NOTE x");
    let token = told.strip_prefix('+').unwrap_or_else(|| panic!("a write answers with {told}"));
    assert_eq!(edge.ask(&format!("GET votes:h {token}")), "[[1,1]]");
    assert_eq!(edge.count("waiting"), 1);
    last(&mut other, "INSERT INTO votes VALUES ('n', 2, 2); COMMIT");
    let told: Vec<_> = (0..3).map(|_| waiting.reply().unwrap()).collect();
    assert_eq!(told, ["[[2,2]]", "[[1,1]]", "+PONG"]);
}

pub fn keys_that_are_missing_together(case: &mut Case) {
    case.sql("INSERT INTO votes SELECT 'k' || it, it, it FROM generate_series(1, 50) AS it");
    let edge = narrow(case);
    let mut other = locked(case);
    let before = edge.count("statements");
    let keys: Vec<_> = (0..=50).map(|number| format!("votes:k{number}")).collect();
    let client = edge.asks(&format!("MGET {}", keys.join(" ")));
    until("all are asked for", || edge.count("waiting") == 51);
    last(&mut other, "ROLLBACK");
    let rows: Vec<_> = (1..=50).map(|number| format!("[[{number},{number}]]")).collect();
    assert_eq!(client.join().unwrap(), format!(" {}", rows.join(" ")));
    // The first may have been asked for alone.
    assert!(edge.count("statements") - before <= 2, "{} statements", edge.count("statements") - before);
}
