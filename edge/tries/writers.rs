//! Writes by an edge: what is written is read with its token, nothing is written that nobody asked for, and writes and misses
//! don't wait for each other.
use crate::edges::{last, signal, until, Client, Edge};
use crate::Case;
use edge_common::postgres::pq::Connection;
use std::io::{Read, Write};
use std::net::TcpStream;

const WAITS: &str = "SELECT count(*) FROM pg_stat_activity WHERE wait_event_type = 'Lock'";

fn token(told: &str) -> &str {
    told.strip_prefix('+').unwrap_or_else(|| panic!("a write answers with a token and not {told}"))
}

pub fn a_write_and_its_token(case: &mut Case) {
    let edge = case.following();
    assert_eq!(edge.get("a", ""), "");
    let told = edge.ask("VOTE a 5 9223372036854775807");
    assert_eq!(edge.held("a", token(&told)), "5:9223372036854775807");
    let told = edge.ask("vote a 3 1");
    assert_eq!(edge.held("a", token(&told)), "3:1 5:9223372036854775807");
    let told = edge.ask("UNVOTE a 5 9223372036854775807");
    assert_eq!(edge.get("a", token(&told)), "3:1");
    for (line, told) in [
        ("UNVOTE a 5 9223372036854775807", "-ERR no row was written"),
        ("VOTE a 1", "-ERR wrong number of arguments"),
        ("VOTE a 1 1 1", "-ERR wrong number of arguments"),
        ("VOTE a x 1", r#"-ERR invalid input syntax for type bigint: "x""#),
        ("VOTE a 9223372036854775808 1", r#"-ERR value "9223372036854775808" is out of range for type bigint"#),
        ("SET a 1", "-ERR unknown command: there are GET, READ, MGET, EXISTS, INFO, PING, HELLO, AUTH, CLIENT, COMMAND, SELECT, QUIT, VOTE, UNVOTE, NOTE"),
    ] {
        assert_eq!(edge.ask(line), told);
    }
    assert_eq!((edge.count("writes"), case.rows("a")), (3, "3:1".into()));
    // What nobody waits to see flushed has a token too.
    case.sql("ALTER DATABASE cases SET synchronous_commit = off");
    let edge = case.following();
    for voter in 10..20 {
        let told = edge.ask(&format!("VOTE a {voter} 1"));
        assert!(edge.get("a", token(&told)).contains(&format!("{voter}:1")));
    }
    case.sql("ALTER DATABASE cases RESET synchronous_commit");
}

pub fn texts_that_are_no_sql(case: &mut Case) {
    case.sql("ALTER DATABASE cases SET standard_conforming_strings = off");
    let edge = case.following();
    case.sql("INSERT INTO votes VALUES ('ab', 7, 7)");
    let articles = [r"\',1,1);DELETE FROM votes;COMMIT;--", r"a\b", r#"a\\"'{,}b"#, "$1"];
    let mut client = edge.client();
    for article in articles {
        let told = client.ask_words(&["VOTE", article, "1", "1"]).unwrap();
        let value = client.ask_words(&["GET", &format!("votes:{article}"), token(&told)]).unwrap();
        assert_eq!(value, "[[1,1]]", "{article}");
    }
    assert_eq!(case.sql("SELECT count(*) FROM votes"), "5");
    assert!(client.ask_words(&["UNVOTE", articles[0], "1", "1"]).unwrap().starts_with('+'));
    assert_eq!(case.sql("SELECT count(*) FROM votes"), "4");
    case.sql("ALTER DATABASE cases RESET standard_conforming_strings");
}

pub fn a_web_page_that_writes(case: &mut Case) {
    let edge = case.following();
    let body = "Content-Length: 12\r\n\r\nVOTE w 1 1\r\n";
    for head in ["POST / HTTP/1.1\r\n", "GET / HTTP/1.1\r\n", "Host: localhost\r\n", "get /w\r\n"] {
        let mut client = TcpStream::connect(("127.0.0.1", edge.port)).unwrap();
        client.write_all(format!("{head}{body}").as_bytes()).unwrap();
        client.shutdown(std::net::Shutdown::Write).unwrap();
        let mut told = String::new();
        client.read_to_string(&mut told).unwrap();
        assert_eq!(told, "-ERR Protocol error: a line of HTTP\r\n", "{head}");
    }
    assert_eq!(case.rows("w"), "");
}

pub fn a_row_that_another_has_locked(case: &mut Case) {
    case.sql("INSERT INTO votes VALUES ('q', 1, 1), ('r', 1, 1)");
    let edge = case.following();
    for (article, end, told) in [("q", "ROLLBACK", "+"), ("r", "COMMIT", "-ERR no row was written")] {
        let mut other = Connection::open(&case.address).unwrap();
        last(&mut other, &format!("BEGIN; DELETE FROM votes WHERE article = '{article}'"));
        let client = edge.asks(&format!("UNVOTE {article} 1 1"));
        until("the client waits or is told", || client.is_finished() || case.sql(WAITS) == "1");
        last(&mut other, end);
        assert!(client.join().unwrap().starts_with(told), "{end}");
        assert_eq!(case.rows(article), "");
    }
}

pub fn clients_that_wrote_once(case: &mut Case) {
    let edge = Edge::start(&case.program, &case.address, "deadline = 60");
    edge.follows();
    let mut other = Connection::open(&case.address).unwrap();
    last(&mut other, "BEGIN; LOCK TABLE votes");
    let before = edge.count("clients");
    let votes: Vec<_> = (0..20).map(|_| edge.asks("VOTE c 1 1")).collect();
    until("all have come", || edge.count("clients") >= before + 20);
    until("four wait for the lock", || case.sql(WAITS).parse::<u32>().unwrap() >= 4);
    last(&mut other, "ROLLBACK");
    assert!(votes.into_iter().all(|vote| vote.join().unwrap().starts_with('+')));
    let mut clients = [edge.client(), edge.client()];
    let connections = "SELECT count(*) FROM pg_stat_activity WHERE application_name = 'edge'";
    // Of those that write there are four at most, and as many that ask, and that of the stream.
    assert!(case.sql(connections).parse::<u32>().unwrap() <= 9);
    // Each that writes was broken with the first.
    case.sql("SELECT pg_terminate_backend(pid) FROM pg_stat_activity WHERE application_name = 'edge'");
    let told = clients[0].ask("VOTE c 2 2").unwrap();
    assert!(told.starts_with("-ERR nobody knows whether it was written: "), "{told}");
    assert!(clients[1].ask("VOTE c 2 2").unwrap().starts_with('+'));
}

/// With one connection each.
pub fn writes_and_misses_apart(case: &mut Case) {
    case.sql("INSERT INTO votes VALUES ('q', 1, 1)");
    let edge = Edge::start(&case.program, &case.address, "connections = 1\nwrite_connections = 1\ndeadline = 4");
    edge.follows();
    let mut other = Connection::open(&case.address).unwrap();
    last(&mut other, "BEGIN; DELETE FROM votes WHERE article = 'q'");
    let client = edge.asks("UNVOTE q 1 1");
    until("the write waits", || case.sql(WAITS) == "1");
    assert_eq!(edge.get("m", ""), "", "a miss waits for no write");
    let second = edge.asks("NOTE x");
    assert_eq!(client.join().unwrap(), "-ERR canceling statement due to statement timeout");
    let told = second.join().unwrap();
    assert!(told.starts_with('+') || told == "-ERR other writes take too long: nothing was written", "{told}");
    last(&mut other, "ROLLBACK");
    last(&mut other, "BEGIN; LOCK TABLE votes");
    let client = edge.asks("GET votes:n");
    until("the miss waits", || case.sql(WAITS) == "1");
    assert!(edge.ask("NOTE y").starts_with('+'), "a write waits for no miss");
    assert!(client.join().unwrap().starts_with("-ERR "));
    last(&mut other, "ROLLBACK");
}

/// Its processes stand still, so that it cancels nothing.
pub fn a_base_that_hangs(case: &mut Case) {
    let edge = Edge::start(&case.program, &case.address, "connections = 1\nwrite_connections = 1\ndeadline = 3");
    edge.follows();
    assert!(edge.ask("NOTE x").starts_with('+'));
    assert_eq!(edge.get("h", ""), "");
    let of_edge = "WHERE application_name = 'edge' AND backend_type = 'client backend'";
    let processes = case.sql(&format!("SELECT string_agg(pid::text, ' ') FROM pg_stat_activity {of_edge}"));
    processes.split(' ').for_each(|process| signal("STOP", process));
    let told = edge.ask("NOTE y");
    assert_eq!(told, "-ERR nobody knows whether it was written: PostgreSQL doesn't answer in time");
    assert_eq!(edge.ask("GET votes:i"), "-ERR PostgreSQL doesn't answer in time");
    until("the edge asks by another connection", || edge.ask("GET votes:i").is_empty());
    assert!(edge.ask("NOTE z").starts_with('+'));
    processes.split(' ').for_each(|process| signal("CONT", process));
}

pub fn an_end_while_a_write_waits_for_a_lock(case: &mut Case) {
    let mut edge = case.following();
    let mut other = Connection::open(&case.address).unwrap();
    last(&mut other, "BEGIN; LOCK TABLE votes");
    let mut client = Client::connect(edge.port).unwrap();
    let client = std::thread::spawn(move || client.ask("VOTE z 1 1"));
    until("the client waits", || case.sql(WAITS) == "1");
    edge.signal("TERM");
    assert_eq!(edge.ends(), Some(0));
    let told = client.join().unwrap().unwrap();
    assert_eq!(told, "-ERR nobody knows whether it was written: the edge has ended");
    last(&mut other, "ROLLBACK");
    until("the slot goes", || case.sql("SELECT count(*) FROM pg_replication_slots") == "0");
}
