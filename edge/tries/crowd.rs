//! Edges beside writers and faults: a key's values never go back, rows of a transaction agree, a client reads what it wrote,
//! and at quiet moments what each edge holds is what the tables have. Every other edge has a slot that lasts.
//!   crowd PROGRAM ADDRESS RESTART EDGES SECONDS SEED
mod edges;
use edge_common::postgres::pq::Connection;
use edges::{last, rows_in, token, until, Client, Edge};
use std::collections::HashMap;
use std::process::Command;
use std::sync::atomic::{AtomicBool, AtomicU64, Ordering::SeqCst};
use std::sync::{Mutex, RwLock};
use std::time::{Duration, Instant};
use std::{env, thread};

const KEYS: u64 = 60;
const WRITERS: u64 = 5;

/// What the threads share.
struct World {
    address: String,
    ports: Vec<u16>,
    is_over: AtomicBool,
    /// Who writes or reads has it meanwhile.
    quiet: RwLock<()>,
    /// Odd while PostgreSQL is restarted: what was not flushed may be lost, and so may be what it told of it.
    age: AtomicU64,
    faults: Mutex<Vec<String>>,
    commits: AtomicU64,
    reads: AtomicU64,
    own_reads: AtomicU64,
}

struct Dice(u64);

impl Dice {
    fn below(&mut self, bound: u64) -> u64 {
        self.0 ^= self.0 << 13;
        self.0 ^= self.0 >> 7;
        self.0 ^= self.0 << 17;
        (self.0 >> 11) % bound
    }

    fn key(&mut self) -> String {
        format!("k{}", self.below(KEYS))
    }

    /// Of a view of rows.
    fn key_of_view(&mut self) -> String {
        format!("{}:{}", ["votes", "kept"][self.below(2) as usize], self.key())
    }

    fn sleep(&mut self, from: u64, to: u64) {
        thread::sleep(Duration::from_millis(from + self.below(to - from)));
    }
}

impl World {
    fn goes_on(&self) -> bool {
        !self.is_over.load(SeqCst)
    }

    fn fault(&self, text: String) {
        self.faults.lock().unwrap().push(text.chars().take(300).collect());
    }

    /// A connection, also where PostgreSQL is being restarted.
    fn base(&self, options: &str) -> Connection {
        let address = format!("{} options='{options}'", self.address);
        let mut base = None;
        until("PostgreSQL is there", || {
            base = Connection::open(&address).ok();
            base.is_some()
        });
        base.unwrap()
    }

    fn client(&self, edge: usize) -> Option<Client> {
        Client::connect(self.ports[edge]).ok()
    }
}

/// What a transaction does to a key. Voter 0 has the key's version, and voter 1 the same.
fn statements(dice: &mut Dice, key: &str, id: u64) -> Vec<String> {
    let all = match dice.below(10) {
        0..4 => vec![
            format!("UPDATE votes SET weight = weight + 1 WHERE article = '{key}' AND voter = 0"),
            format!("DELETE FROM votes WHERE article = '{key}' AND voter = 1"),
            format!("INSERT INTO votes SELECT article, 1, weight FROM votes WHERE article = '{key}' AND voter = 0"),
        ],
        4..6 => vec![format!("INSERT INTO votes VALUES ('{key}', 10, {id})")],
        6 => vec![format!("INSERT INTO votes SELECT '{key}', 20 + n, {id} FROM generate_series(1, 80) AS n")],
        7 => vec![format!(
            "UPDATE votes SET article = '{}' WHERE ctid IN (SELECT ctid FROM votes WHERE article = '{key}' AND voter = 10
            LIMIT 1 FOR UPDATE SKIP LOCKED)",
            dice.key()
        )],
        _ => vec![format!(
            "DELETE FROM votes WHERE ctid IN (SELECT ctid FROM votes WHERE article = '{key}' AND voter >= 10
            LIMIT 90 FOR UPDATE SKIP LOCKED)"
        )],
    };
    match dice.below(8) {
        0 => [vec!["SAVEPOINT s".into()], all, vec!["ROLLBACK TO s".into()]].concat(),
        1 => [vec!["SAVEPOINT s".into()], all, vec!["RELEASE s".into()]].concat(),
        2 => [all, vec![format!("SELECT pg_sleep({})", dice.below(100) as f64 / 1000.0)]].concat(),
        _ => all,
    }
}

/// Transactions of one to four keys, in one message or statement by statement; some are rolled back.
fn write(world: &World, number: u64, seed: u64) {
    let mut dice = Dice(seed * 1000 + number * 77 + 1);
    let options = if number.is_multiple_of(3) { "-c synchronous_commit=off" } else { "" };
    let (mut base, mut id) = (world.base(options), number * 1_000_000_000);
    while world.goes_on() {
        let open = world.quiet.read().unwrap();
        let mut keys: Vec<_> = (0..1 + dice.below(4)).map(|_| dice.key()).collect();
        keys.sort();
        keys.dedup();
        // No two rows are the same.
        let statements = keys.iter().flat_map(|key| {
            id += 1;
            statements(&mut dice, key, id)
        });
        let all: Vec<_> = statements.collect();
        let end = if dice.below(7) == 0 { "ROLLBACK" } else { "COMMIT" };
        let all = [vec!["BEGIN".into()], all, vec![end.into()]].concat();
        let messages = if dice.below(2) == 0 { vec![all.join("; ")] } else { all };
        match messages.iter().try_for_each(|sql| base.run(sql).map(|_| ())) {
            Ok(()) => _ = world.commits.fetch_add(1, SeqCst),
            Err(_) => base = world.base(options),
        }
        drop(open);
        dice.sleep(0, 4);
    }
}

/// The version of a key, or what is wrong with its rows.
fn version_of(answer: &str) -> Result<u64, String> {
    let rows = rows_in(answer);
    let weights = |voter: u64| -> Vec<u64> { rows.iter().filter(|row| row.0 == voter).map(|row| row.1).collect() };
    match (weights(0).as_slice(), weights(1).as_slice()) {
        ([version], [mark]) if version == mark => Ok(*version),
        (versions, marks) => Err(format!("versions {versions:?} and marks {marks:?}")),
    }
}

/// One client's own order: what it saw of each key last.
#[derive(Default)]
struct Last {
    versions: HashMap<String, u64>,
    token: String,
    age: u64,
}

impl Last {
    fn forget_after_restart(&mut self, world: &World) {
        let age = world.age.load(SeqCst);
        if age != self.age {
            *self = Last { age, ..Last::default() };
        }
    }

    /// An answer that came. PostgreSQL must not have been restarted while it was asked for.
    fn look(&mut self, world: &World, edge: usize, key: String, rows: &str) {
        if self.age % 2 == 1 || world.age.load(SeqCst) != self.age {
            return;
        }
        let before = self.versions.get(&key).copied().unwrap_or_default();
        match version_of(rows) {
            Ok(version) if version >= before => _ = self.versions.insert(key, version),
            Ok(version) => world.fault(format!("edge {edge}, {key}: back from {before} to {version}")),
            Err(fault) => world.fault(format!("edge {edge}, {key}: {fault}")),
        }
        world.reads.fetch_add(1, SeqCst);
    }
}

/// Stays at one edge, until that is killed.
fn read(world: &World, edge: usize, seed: u64) {
    let mut dice = Dice(seed * 31 + edge as u64 * 7 + 3);
    let (mut client, mut last) = (None, Last::default());
    while world.goes_on() {
        last.forget_after_restart(world);
        let Some(open) = &mut client else {
            (client, last) = (world.client(edge), Last::default());
            continue;
        };
        let _open = world.quiet.read().unwrap();
        let key = dice.key_of_view();
        match open.ask(&format!("GET {key}")) {
            Ok(rows) if !rows.starts_with('-') => last.look(world, edge, key, &rows),
            Ok(_) => {}
            Err(_) => client = None,
        }
        if dice.below(16) == 0 {
            dice.sleep(0, 2);
        }
    }
}

/// Goes from edge to edge with the token of its last read.
fn wander(world: &World, seed: u64) {
    let (mut dice, mut last) = (Dice(seed * 37 + 11), Last::default());
    while world.goes_on() {
        last.forget_after_restart(world);
        let open = world.quiet.read().unwrap();
        let (edge, key) = (dice.below(world.ports.len() as u64) as usize, dice.key_of_view());
        let answer = world.client(edge).and_then(|mut it| it.ask(&format!("READ {key} {}", last.token)).ok());
        let answer = answer.filter(|answer| !answer.starts_with('-'));
        if let Some((rows, token)) = answer.as_deref().and_then(|answer| answer.split_once(' ')) {
            last.token = token.into();
            last.look(world, edge, key, rows);
        }
        drop(open);
        dice.sleep(0, 3);
    }
}

/// Writes at one edge and reads at another.
fn write_and_read(world: &World, seed: u64) {
    let (mut dice, mut id) = (Dice(seed * 41 + 13), 7_000_000_000_u64);
    while world.goes_on() {
        let open = world.quiet.read().unwrap();
        id += 1;
        let age = world.age.load(SeqCst);
        let (key, edges) = (dice.key(), world.ports.len() as u64);
        let [one, other] = [0; 2].map(|_| dice.below(edges) as usize);
        let ask = |edge: usize, line: String| world.client(edge)?.ask(&line).ok();
        let token = ask(one, format!("VOTE {key} 5 {id}")).and_then(|it| Some(it.strip_prefix('+')?.to_owned()));
        let view = ["votes", "kept"][dice.below(2) as usize];
        let rows = token.and_then(|token| ask(other, format!("GET {view}:{key} {token}")));
        let rows = rows.filter(|rows| !rows.starts_with('-') && age.is_multiple_of(2) && world.age.load(SeqCst) == age);
        if let Some(rows) = rows {
            world.own_reads.fetch_add(1, SeqCst);
            if !rows_in(&rows).contains(&(5, id)) {
                world.fault(format!("edge {other}, {key}: lacks {id}, which its client wrote"));
            }
        }
        _ = ask(one, format!("UNVOTE {key} 5 {id}"));
        drop(open);
        dice.sleep(1, 6);
    }
}

/// Now and then commits wait for a standby that never comes: they are in the stream and no snapshot sees them.
fn hold_commits(world: &World, seed: u64) {
    let mut dice = Dice(seed * 43 + 17);
    while world.goes_on() {
        for (sql, from, to) in [("SET synchronous_standby_names = 'nobody'", 20, 170), ("RESET ALL", 100, 600)] {
            let mut base = world.base("-c synchronous_commit=local");
            _ = base.run(&format!("ALTER SYSTEM {sql}")).and_then(|_| base.run("SELECT pg_reload_conf()"));
            dice.sleep(from, to);
        }
    }
}

/// One of the faults.
fn break_something(world: &World, edges: &mut [Edge], restart: &str, dice: &mut Dice) {
    let edge = dice.below(edges.len() as u64) as usize;
    let mut base = world.base("-c synchronous_commit=local");
    let of_edge = format!("application_name = 'crowd_{edge}'");
    let stream = format!("FROM pg_replication_slots JOIN pg_stat_replication ON active_pid = pid WHERE {of_edge}");
    let drop =
        "SELECT pg_drop_replication_slot(slot_name) FROM pg_replication_slots WHERE NOT active AND NOT temporary";
    match dice.below(12) {
        0..5 => _ = base.run(&format!("SELECT pg_terminate_backend(active_pid) {stream}")),
        5..8 => {
            (0..20).for_each(|_| _ = base.run(&format!("SELECT pg_terminate_backend(active_pid) {stream}; {drop}")))
        }
        8..10 => {
            edges[edge].kill();
            // What its clients wrote may go on for a while, and quiet moments begin after it.
            let of_edge = format!("SELECT 1 FROM pg_stat_activity WHERE {of_edge}");
            until("its connections end", || last(&mut base, &of_edge).is_empty());
            _ = base.run(drop);
            edges[edge].start_again();
        }
        10 => _ = base.run("ALTER TABLE votes ALTER weight SET NOT NULL"),
        _ => {
            world.age.fetch_add(1, SeqCst);
            assert!(Command::new("bash").args(["-c", restart]).status().unwrap().success());
            let now = token(&mut world.base("-c synchronous_commit=local"));
            for edge in edges {
                until("the edge begins anew", || !edge.ask(&format!("GET votes:k0 {now}")).starts_with('-'));
            }
            world.age.fetch_add(1, SeqCst);
        }
    }
}

/// Compares what each edge answers with the table, while nobody writes or reads; how many keys it held.
fn compare(world: &World, edges: &[Edge]) -> u64 {
    let _quiet = world.quiet.write().unwrap();
    let mut base = world.base("-c synchronous_commit=local");
    let now = token(&mut base);
    let rows = "SELECT article, string_agg(voter || ':' || weight, ' ' ORDER BY voter, weight) FROM votes GROUP BY 1";
    let table: HashMap<_, _> = last(&mut base, rows).into_iter().map(|row| (row[0].clone(), row[1].clone())).collect();
    let mut held = 0;
    for (number, edge) in edges.iter().enumerate() {
        let before = edge.count("hits");
        for key in (0..KEYS).map(|key| format!("k{key}")) {
            let mut told = Ok(String::new());
            until("the edge comes as far as the table", || {
                told = edge.rows(&key, &now);
                !told.as_ref().is_err_and(|why| why.starts_with('-'))
            });
            if told.as_ref() != Ok(&table[&key]) {
                world.fault(format!("edge {number}, {key}: the table has {}, and it tells {told:?}", table[&key]));
            }
        }
        held += edge.count("hits") - before;
    }
    held
}

/// How often each thing happened that the rule is there for, since each edge was started last.
fn counts(edges: &[Edge]) -> String {
    let names = ["fills", "evictions", "updates", "skips", "replays", "repeats", "again", "losses", "disagreements"];
    let sum = |name: &&str| format!("{name} {}", edges.iter().map(|edge| edge.count(name)).sum::<u64>());
    names.iter().map(sum).collect::<Vec<_>>().join(", ")
}

fn begin(address: &str) {
    let mut base = Connection::open(address).unwrap();
    let keys = format!("generate_series(0, {KEYS} - 1) AS key, generate_series(0, 1) AS voter");
    last(&mut base, &format!("TRUNCATE votes, kept; INSERT INTO votes SELECT 'k' || key, voter, 1 FROM {keys}"));
}

/// Some hold a third of the keys, and ask for them by one connection; the others' slots last.
fn edge(program: &str, address: &str, number: u64) -> Edge {
    let few = "connections = 1\n[cache]\nkeys = 60";
    let lines = if number.is_multiple_of(2) { few } else { "lasting_slot = true\nmax_staleness = 20" };
    Edge::start(program, &format!("{address} application_name=crowd_{number}"), lines)
}

impl World {
    fn of(address: &str, edges: &[Edge]) -> World {
        World {
            ports: edges.iter().map(|edge| edge.port).collect(),
            address: address.into(),
            is_over: AtomicBool::new(false),
            quiet: RwLock::new(()),
            age: AtomicU64::new(0),
            faults: Mutex::default(),
            commits: AtomicU64::new(0),
            reads: AtomicU64::new(0),
            own_reads: AtomicU64::new(0),
        }
    }

    fn report(&self, edges: &[Edge], held: u64) {
        let [commits, reads, own] = [&self.commits, &self.reads, &self.own_reads].map(|it| it.load(SeqCst));
        println!("crowd: {} edges: {commits} transactions, {reads} reads, {own} of own writes", edges.len());
        println!("crowd: {held} keys held as the tables have them; {}", counts(edges));
        let faults = self.faults.lock().unwrap();
        faults.iter().take(8).for_each(|fault| println!("crowd: {fault}"));
        let disagreements: u64 = edges.iter().map(|edge| edge.count("disagreements")).sum();
        assert!(commits > 0 && reads > 0 && own > 0 && held > 0);
        assert!(faults.is_empty() && disagreements == 0, "{} faults, {disagreements} disagreements", faults.len());
    }
}

fn main() {
    let words: Vec<String> = env::args().collect();
    let [count, seconds, seed] = [4, 5, 6].map(|place| words[place].parse::<u64>().unwrap());
    let (program, address, restart) = (&words[1], &words[2], &words[3]);
    begin(address);
    let mut edges: Vec<_> = (0..count).map(|number| edge(program, address, number)).collect();
    let world = &World::of(address, &edges);
    let (mut held, mut dice, begin) = (0, Dice(seed + 99), Instant::now());
    thread::scope(|scope| {
        (0..WRITERS).for_each(|number| _ = scope.spawn(move || write(world, number, seed)));
        (0..2 * count as usize).for_each(|it| _ = scope.spawn(move || read(world, it / 2, seed + it as u64)));
        scope.spawn(move || wander(world, seed));
        scope.spawn(move || write_and_read(world, seed));
        scope.spawn(move || hold_commits(world, seed));
        while begin.elapsed() < Duration::from_secs(seconds) {
            dice.sleep(200, 900);
            break_something(world, &mut edges, restart, &mut dice);
            held += if dice.below(2) == 0 { compare(world, &edges) } else { 0 };
        }
        held += compare(world, &edges);
        world.is_over.store(true, SeqCst);
    });
    world.report(&edges, held);
}
