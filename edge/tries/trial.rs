//! Changes and reads of a table's rows and of another's sums side by side, beside faults: what an edge answers who has a
//! token is what PostgreSQL has.
//!   trial ADDRESS SECONDS PORT..
use std::io::{BufRead, BufReader, Lines, Read, Write};
use std::net::TcpStream;
use std::process::{exit, Child, ChildStdout, Command, Stdio};
use std::sync::atomic::{AtomicBool, AtomicU64, Ordering::SeqCst};
use std::time::{Duration, Instant};
use std::{env, thread};

/// As many clients have a key each.
const KEYS: u64 = 12;

/// However long these take.
const FEWEST: u64 = 200;

struct Base {
    psql: Child,
    lines: Lines<BufReader<ChildStdout>>,
}

impl Base {
    fn open(address: &str) -> Base {
        let mut psql = Command::new("psql");
        psql.args(["-X", "-q", "-t", "-A", address]).stdin(Stdio::piped()).stdout(Stdio::piped()).stderr(Stdio::null());
        let mut psql = psql.spawn().unwrap();
        let lines = BufReader::new(psql.stdout.take().unwrap()).lines();
        Base { psql, lines }
    }

    /// What some statements print.
    fn run(&mut self, sql: &str) -> String {
        writeln!(self.psql.stdin.as_mut().unwrap(), "{sql};\n\\echo THE END").unwrap();
        let lines = self.lines.by_ref().map(Result::unwrap).take_while(|line| line != "THE END");
        lines.collect::<Vec<_>>().join("\n")
    }
}

struct Edge(BufReader<TcpStream>);

impl Edge {
    fn open(port: &str) -> Edge {
        Edge(BufReader::new(TcpStream::connect(format!("127.0.0.1:{port}")).unwrap()))
    }

    fn ask(&mut self, words: &[&str]) -> String {
        self.0.get_mut().write_all(format!("{}\r\n", words.join(" ")).as_bytes()).unwrap();
        let mut line = String::new();
        self.0.read_line(&mut line).unwrap();
        let Some(size) = line.trim_end().strip_prefix('$') else { return line.trim_end().into() };
        let Ok(size) = size.parse::<usize>() else { return String::new() };
        let mut bytes = vec![0; size + 2];
        self.0.read_exact(&mut bytes).unwrap();
        String::from_utf8(bytes[..size].to_vec()).unwrap()
    }
}

/// Numbers that look random, the same for each run.
struct Numbers(u64);

impl Numbers {
    fn below(&mut self, limit: u64) -> u64 {
        self.0 = self.0.wrapping_mul(6364136223846793005).wrapping_add(1442695040888963407);
        (self.0 >> 33) % limit
    }
}

fn statement(numbers: &mut Numbers) -> String {
    let (id, client, total) = (100 + numbers.below(40), numbers.below(KEYS), numbers.below(3));
    let total = if total == 0 { "NULL".into() } else { total.to_string() };
    match numbers.below(6) {
        0 | 1 => format!("INSERT INTO orders VALUES ({id}, 'c{client}', '2026-01-01', {total}) ON CONFLICT DO NOTHING"),
        2 => format!("UPDATE orders SET client = 'c{client}' WHERE id = {id}"),
        3 => format!("UPDATE orders SET total = {total} WHERE client = 'c{client}'"),
        4 => format!("DELETE FROM orders WHERE id = {id}"),
        _ => format!("SAVEPOINT s; UPDATE orders SET total = 7 WHERE client = 'c{client}'; ROLLBACK TO s"),
    }
}

fn rows(base: &mut Base, client: u64) -> String {
    let row = r#"format('{"id":%s,"total":%s,"paid":null,"note":null}', id, coalesce(total::text, 'null'))"#;
    let all = format!(r#"'[' || string_agg({row}, ',' ORDER BY {row} COLLATE "C") || ']'"#);
    base.run(&format!("SELECT {all} FROM orders WHERE client = 'c{client}' AND day = '2026-01-01'"))
}

/// Of a table that is changed as that of rows is.
fn sums(base: &mut Base, client: u64) -> String {
    let cells = "client, count(*), count(total), coalesce(sum(total)::text, 'null'), coalesce(max(total)::text, 'null'), max(day)";
    let row = r#"'[{"client":"%s","sales":%s,"priced":%s,"sum":%s,"max":%s,"last":"%s"}]'"#;
    base.run(&format!("SELECT format({row}, {cells}) FROM sales WHERE client = 'c{client}' GROUP BY client"))
}

/// Changes rows and looks whether who has the change's token reads them. How often it did.
fn change(ports: &[String], address: &str, end: Instant) -> u64 {
    let (mut base, mut numbers, mut count) = (Base::open(address), Numbers(7), 0);
    let mut edges: Vec<_> = ports.iter().map(|port| Edge::open(port)).collect();
    while Instant::now() < end || count < FEWEST {
        let statements: Vec<_> = (0..=numbers.below(4)).map(|_| statement(&mut numbers)).collect();
        let last = if numbers.below(10) == 0 { "ROLLBACK" } else { "COMMIT" };
        let statements = statements.join("; ");
        base.run(&format!("BEGIN; {statements}; {}; {last}", statements.replace("orders", "sales")));
        let token = base.run("SELECT pg_current_wal_flush_lsn()");
        for _ in 0..3 {
            let edge = &mut edges[numbers.below(ports.len() as u64) as usize];
            let client = numbers.below(KEYS);
            let (wanted, key) = match numbers.below(2) {
                0 => (rows(&mut base, client), format!("orders:c{client}:2026-01-01")),
                _ => (sums(&mut base, client), format!("sums:c{client}")),
            };
            let mut got = edge.ask(&["GET", &key, &token]);
            // While its connections are ended an edge may say so.
            for _ in 0..100 {
                if !got.starts_with('-') {
                    break;
                }
                thread::sleep(Duration::from_millis(20));
                got = edge.ask(&["GET", &key, &token]);
            }
            if got != wanted {
                eprintln!("{key} at {token} after '{statements}': wanted '{wanted}', got '{got}'");
                exit(1);
            }
            count += 1;
        }
    }
    count
}

/// The more edges there are, the longer each needs for a new slot, and so it has the time.
fn disturb(address: &str, edges: u64, is_over: &AtomicBool) {
    let (mut base, mut numbers) = (Base::open(address), Numbers(3));
    let end = "SELECT count(pg_terminate_backend(pid)) FROM pg_stat_activity WHERE application_name = 'edge' AND backend_type";
    while !is_over.load(SeqCst) {
        thread::sleep(Duration::from_millis(edges * (200 + numbers.below(600))));
        base.run(&match numbers.below(5) {
            0 => format!("{end} = 'walsender'"),
            1 | 2 => format!("{end} = 'client backend'"),
            3 => "TRUNCATE prices".into(),
            _ => format!("ALTER TABLE times ALTER what SET STATISTICS {}", numbers.below(100)),
        });
    }
}

fn main() {
    let words: Vec<String> = env::args().skip(1).collect();
    let [address, seconds, ports @ ..] = &words[..] else { panic!("ADDRESS SECONDS PORT..") };
    let end = Instant::now() + Duration::from_secs(seconds.parse().unwrap());
    let (is_over, reads) = (AtomicBool::new(false), AtomicU64::new(0));
    let checked = thread::scope(|scope| {
        for seed in 0..4 {
            let (is_over, reads) = (&is_over, &reads);
            scope.spawn(move || {
                let (mut edge, mut numbers) = (Edge::open(&ports[seed as usize % ports.len()]), Numbers(seed));
                while !is_over.load(SeqCst) {
                    let client = numbers.below(KEYS);
                    edge.ask(&["GET", &format!("orders:c{client}:2026-01-01")]);
                    edge.ask(&["GET", &format!("sums:c{client}")]);
                    reads.fetch_add(1, SeqCst);
                }
            });
        }
        scope.spawn(|| disturb(address, ports.len() as u64, &is_over));
        let checked = change(ports, address, end);
        is_over.store(true, SeqCst);
        checked
    });
    println!("trial: {checked} reads were as PostgreSQL has it, beside {} others", reads.load(SeqCst));
}
