//! What an operator found of a server: each try is of one finding.
//!   operator PORT TRY
mod client;
use client::Client;
use std::time::{Duration, Instant};
use std::{env, thread};

fn stat(port: &str, name: &str) -> u64 {
    let text = Client::connect(port).ask("STATS");
    let line = text.lines().find_map(|line| line.strip_prefix(name)?.strip_prefix(':'));
    line.unwrap_or_else(|| panic!("STATS has no {name}")).parse().unwrap()
}

/// Whether that comes to be within some seconds.
fn comes(what: impl Fn() -> bool) -> bool {
    (0..500).any(|_| {
        what() || {
            thread::sleep(Duration::from_millis(10));
            false
        }
    })
}

/// A scan over names that aren't there takes nothing from those that are for good.
fn scan(port: &str) {
    let mut client = Client::connect(port);
    for hundred in 0..200 {
        let lines: String = (0..100).map(|name| format!("GET missing:{hundred}:{name}\r\n")).collect();
        client.send(&lines);
        (0..100).for_each(|_| assert_eq!(client.reply(), ""));
    }
    assert_eq!(client.ask("GET a"), "3:1 7:2");
    let before = stat(port, "hits");
    assert_eq!(client.ask("GET a"), "3:1 7:2");
    assert_eq!(stat(port, "hits"), before + 1, "what was asked for after the scan isn't held");
}

/// Clients that say nothing keep nobody out.
fn silent(port: &str) {
    let clients: Vec<_> = (0..400).map(|_| Client::connect(port)).collect();
    assert_eq!(Client::connect(port).ask("GET a"), "3:1 7:2");
    assert!(comes(|| stat(port, "clients") >= 400));
    drop(clients);
    assert!(comes(|| stat(port, "clients") == 1), "who has gone is still counted");
}

/// Who says nothing for two seconds goes, and so does who brings a command bit by bit; who waits for an answer stays.
fn idle(port: &str) {
    let mut quiet = Client::connect(port);
    let mut slow = Client::connect(port);
    let mut waiting = Client::connect(port);
    let mut busy = Client::connect(port);
    waiting.send("GET slow\r\n");
    let begin = Instant::now();
    let mut slow_went = false;
    while begin.elapsed() < Duration::from_millis(4500) {
        slow_went |= !slow.sends("PING PING ");
        assert_eq!(busy.ask("PING"), "+PONG");
        thread::sleep(Duration::from_millis(100));
    }
    assert!(slow_went, "who brings a command bit by bit stays");
    assert!(quiet.has_ended(), "who says nothing stays");
    assert_eq!(waiting.reply(), "");
    assert_eq!(stat(port, "timed-out-clients"), 2);
}

/// Who doesn't read its replies goes, and the server keeps little for it.
fn unread(port: &str) {
    let mut client = Client::connect(port);
    let many = "GET many\r\n".repeat(1000);
    let begin = Instant::now();
    while client.sends(&many) {
        assert!(begin.elapsed() < Duration::from_secs(9), "who doesn't read stays");
    }
    assert_eq!(stat(port, "timed-out-clients"), 1);
}

/// Clients that are more than there are descriptors wait, and are served once there is one.
fn descriptors(port: &str) {
    let mut clients: Vec<_> = (0..60).map(|_| Client::connect(port)).collect();
    assert_eq!(clients[0].ask("GET a"), "3:1 7:2");
    let mut last = clients.pop().unwrap();
    last.send("PING\r\n");
    thread::sleep(Duration::from_secs(2));
    assert_eq!(clients[0].ask("PING"), "+PONG");
    clients.truncate(2);
    assert_eq!(last.reply(), "+PONG");
}

/// Of a client's commands in one breath, the misses are loaded side by side.
fn breath(port: &str) {
    let mut client = Client::connect(port);
    let lines: String = (0..10).map(|name| format!("GET breath:{name}\r\n")).collect();
    let begin = Instant::now();
    client.send(&lines);
    (0..10).for_each(|_| assert_eq!(client.reply(), ""));
    let took = begin.elapsed();
    assert!(took < Duration::from_millis(2500), "ten loads of 500 ms took {took:?}");
}

/// While all who may wait wait for the base, what is held is found.
fn held(port: &str) {
    let mut client = Client::connect(port);
    assert_eq!(client.ask("GET a"), "3:1 7:2");
    let mut others: Vec<_> = (0..40).map(|_| Client::connect(port)).collect();
    for (number, other) in others.iter_mut().enumerate() {
        other.send(&format!("GET other:{number}\r\n"));
    }
    thread::sleep(Duration::from_millis(20));
    let begin = Instant::now();
    assert_eq!(client.ask("GET a"), "3:1 7:2");
    assert!(begin.elapsed() < Duration::from_millis(500), "a hit took {:?}", begin.elapsed());
    others.iter_mut().for_each(|other| assert_eq!(other.reply(), ""));
    assert!(stat(port, "hit-us-p50") < 500_000 && stat(port, "miss-us-p50") >= 500_000, "STATS tells other times");
}

/// Votes of many clients, each with many in one breath, keep no miss waiting for all of them.
fn crowd(port: &str) {
    let mut voters: Vec<_> = (0..32).map(|_| Client::connect(port)).collect();
    for (number, voter) in voters.iter_mut().enumerate() {
        voter.send(&format!("VOTE crowd:{number} 1 1\r\n").repeat(20));
    }
    assert!(comes(|| stat(port, "votes") > 0));
    assert_eq!(Client::connect(port).ask("GET crowd:none"), "");
    let votes = stat(port, "votes");
    assert!(votes < 320, "a miss came after {votes} of 640 votes");
    voters.iter_mut().for_each(|voter| (0..20).for_each(|_| assert_eq!(voter.reply(), "+OK")));
}

/// Commands of all kinds in one breath are answered in their order, though each kind is another's to answer.
fn order(port: &str) {
    let mut clients: Vec<_> = (0..8).map(|_| Client::connect(port)).collect();
    let vote = |number: usize, user: usize| format!("VOTE order:{number} {user} 1\r\nGET order:{number}\r\nPING\r\n");
    for (number, client) in clients.iter_mut().enumerate() {
        client.send(&(0..50).map(|user| vote(number, user)).collect::<String>());
    }
    for client in &mut clients {
        for user in 0..50 {
            let rows: Vec<_> = (0..=user).map(|user| format!("{user}:1")).collect();
            assert_eq!([client.reply(), client.reply(), client.reply()], ["+OK", &rows.join(" "), "+PONG"]);
        }
    }
}

/// Few threads load what a client asks for in one breath.
fn few(port: &str) {
    let mut client = Client::connect(port);
    client.send("GET few:1\r\nGET few:2\r\nGET few:3\r\n");
    let begin = Instant::now();
    (0..3).for_each(|_| assert_eq!(client.reply(), ""));
    assert!(begin.elapsed() < Duration::from_secs(3), "nobody loads");
}

fn main() {
    let words: Vec<String> = env::args().collect();
    let tries: [(&str, fn(&str)); 10] = [
        ("scan", scan),
        ("silent", silent),
        ("idle", idle),
        ("unread", unread),
        ("descriptors", descriptors),
        ("breath", breath),
        ("held", held),
        ("few", few),
        ("crowd", crowd),
        ("order", order),
    ];
    tries.iter().find(|(name, _)| *name == words[2]).expect("a try").1(&words[1]);
}
