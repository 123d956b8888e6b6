//! Clients that get one of 50,000 even keys after another, with so many commands at once; and a writer that looks how long
//! after a commit each edge has it.
//!   gets redis|memcached PORT CLIENTS DEPTH SECONDS   prints gets a second, and the microseconds within which half and
//!                                                     99 of 100 were answered, of as many as are sent at once
//!   gets base ADDRESS CLIENTS 1 SECONDS               the same by statements of PostgreSQL's
//!   gets put redis|memcached PORT                     puts what is got
//!   gets visible ADDRESS RATE SECONDS PORT..          prints changes a second that came through beside, and the
//!                                                     microseconds after which half and 99 of 100 commits were seen
use edge_common::postgres::pq::Connection;
use std::io::{BufRead, BufReader, Read, Write};
use std::net::TcpStream;
use std::sync::atomic::{AtomicBool, AtomicU64, Ordering::SeqCst};
use std::time::{Duration, Instant};
use std::{env, thread};

const KEYS: u64 = 50_000;
const WRITERS: u64 = 4;

struct Dice(u64);

impl Dice {
    fn key(&mut self) -> u64 {
        self.0 ^= self.0 << 13;
        self.0 ^= self.0 >> 7;
        self.0 ^= self.0 << 17;
        (self.0 >> 11) % KEYS
    }
}

/// What an edge tells of it, and the others too.
fn value(key: u64) -> String {
    format!("[[\"title {key}\",0]]")
}

struct Wire {
    stream: BufReader<TcpStream>,
    is_redis: bool,
    line: String,
    bytes: Vec<u8>,
}

impl Wire {
    fn open(kind: &str, port: &str) -> Wire {
        let stream = TcpStream::connect(format!("127.0.0.1:{port}")).expect("the server listens");
        stream.set_nodelay(true).unwrap();
        Wire { stream: BufReader::new(stream), is_redis: kind == "redis", line: String::new(), bytes: Vec::new() }
    }

    fn send(&mut self, text: &str) {
        self.stream.get_mut().write_all(text.as_bytes()).unwrap();
    }

    fn line(&mut self) -> &str {
        self.line.clear();
        self.stream.read_line(&mut self.line).unwrap();
        self.line.trim_end()
    }

    fn bytes(&mut self, count: usize) {
        self.bytes.resize(count + 2, 0);
        self.stream.read_exact(&mut self.bytes).unwrap();
    }

    /// What asks for a key; for memcached the key alone is another.
    fn ask(&self, key: u64) -> String {
        if self.is_redis {
            format!("*2\r\n$3\r\nGET\r\n${}\r\narticles:{key}\r\n", "articles:".len() + key.to_string().len())
        } else {
            format!("get articles:{key}\r\n")
        }
    }

    /// Reads the value, which is there.
    fn told(&mut self) {
        let is_redis = self.is_redis;
        let line = self.line();
        let count = if is_redis { line.strip_prefix('$') } else { line.rsplit(' ').next() };
        let count = count.and_then(|count| count.parse().ok()).unwrap_or_else(|| panic!("a server says {line}"));
        self.bytes(count);
        if !is_redis {
            self.line();
        }
    }

    fn put(&mut self, key: u64) {
        let value = value(key);
        if self.is_redis {
            self.send(&format!(
                "*3\r\n$3\r\nSET\r\n${0}\r\n{1}\r\n${2}\r\n{value}\r\n",
                9 + key.to_string().len(),
                format_args!("articles:{key}"),
                value.len()
            ));
        } else {
            self.send(&format!("set articles:{key} 0 0 {}\r\n{value}\r\n", value.len()));
        }
        self.line();
    }
}

/// Asks for some keys at once, by a connection of its own.
fn asker(kind: &str, place: &str, depth: usize) -> Box<dyn FnMut(&mut Dice)> {
    if kind == "base" {
        let mut base = Connection::open(place).expect("PostgreSQL is there");
        base.run("PREPARE get (int) AS SELECT title, votes FROM articles WHERE id = $1").expect("there is a table");
        return Box::new(move |dice| {
            let cells = base.run_prepared("get", &[&dice.key().to_string()]).expect("PostgreSQL answers");
            assert_eq!(cells.len(), 1);
        });
    }
    let (mut wire, mut text) = (Wire::open(kind, place), String::new());
    Box::new(move |dice| {
        text.clear();
        (0..depth).for_each(|_| text.push_str(&wire.ask(dice.key())));
        wire.send(&text);
        (0..depth).for_each(|_| wire.told());
    })
}

fn gets(kind: &str, place: &str, clients: u64, depth: usize, time: Duration) -> Vec<u64> {
    let client = |number: u64| {
        let (mut ask, mut dice, mut times) = (asker(kind, place, depth), Dice(number * 7919 + 1), Vec::new());
        let begin = Instant::now();
        while begin.elapsed() < time {
            let asked = Instant::now();
            ask(&mut dice);
            times.push(asked.elapsed().as_micros() as u64);
        }
        times
    };
    thread::scope(|scope| {
        let client = &client;
        let clients: Vec<_> = (1..=clients).map(|number| scope.spawn(move || client(number))).collect();
        clients.into_iter().flat_map(|client| client.join().unwrap()).collect()
    })
}

/// Changes of even keys at a rate; how many a second came through.
fn change(address: &str, rate: u64, is_over: &AtomicBool) -> u64 {
    let (begin, done) = (Instant::now(), AtomicU64::new(0));
    thread::scope(|scope| {
        for number in 1..=WRITERS {
            let done = &done;
            scope.spawn(move || {
                let (mut base, mut dice) = (Connection::open(address).unwrap(), Dice(number * 104_729));
                base.run("PREPARE vote (int) AS UPDATE articles SET votes = votes + 1 WHERE id = $1").unwrap();
                while !is_over.load(SeqCst) {
                    if done.load(SeqCst) >= begin.elapsed().as_millis() as u64 * rate / 1000 {
                        thread::sleep(Duration::from_micros(200));
                        continue;
                    }
                    base.run_prepared("vote", &[&dice.key().to_string()]).unwrap();
                    done.fetch_add(1, SeqCst);
                }
            });
        }
    });
    done.load(SeqCst) * 1000 / begin.elapsed().as_millis() as u64
}

/// From a commit until each edge, one after another, answers with it.
fn visible(address: &str, time: Duration, ports: &[String]) -> Vec<u64> {
    let (mut base, begin, mut times) = (Connection::open(address).unwrap(), Instant::now(), Vec::new());
    let mut edges: Vec<_> = ports.iter().map(|port| Wire::open("redis", port)).collect();
    let seen = |edge: &mut Wire| {
        let ask = edge.ask(KEYS);
        edge.send(&ask);
        edge.told();
        String::from_utf8_lossy(&edge.bytes).trim_end().to_owned()
    };
    edges.iter_mut().for_each(|edge| _ = seen(edge));
    for number in 1.. {
        if begin.elapsed() >= time {
            break;
        }
        base.run(&format!("UPDATE articles SET votes = {number} WHERE id = {KEYS}")).unwrap();
        let (committed, wanted) = (Instant::now(), format!("[[\"title {KEYS}\",{number}]]"));
        for edge in &mut edges {
            while seen(edge) != wanted {}
            times.push(committed.elapsed().as_micros() as u64);
        }
    }
    times
}

fn within(times: &mut [u64]) -> String {
    times.sort_unstable();
    let within = |part: f64| times[((times.len() - 1) as f64 * part) as usize];
    format!("{}\t{}", within(0.5), within(0.99))
}

fn main() {
    let words: Vec<String> = env::args().skip(1).collect();
    let number = |place: usize| words[place].parse::<u64>().unwrap();
    match words[0].as_str() {
        "put" => {
            let mut wire = Wire::open(&words[1], &words[2]);
            (0..KEYS).for_each(|key| wire.put(key));
        }
        "visible" => {
            let is_over = AtomicBool::new(false);
            let (mut times, rate) = thread::scope(|scope| {
                let changes = scope.spawn(|| change(&words[1], number(2), &is_over));
                let times = visible(&words[1], Duration::from_secs(number(3)), &words[4..]);
                is_over.store(true, SeqCst);
                (times, changes.join().unwrap())
            });
            println!("{rate}\t{}", within(&mut times));
        }
        kind => {
            let (depth, seconds) = (number(3), number(4));
            let mut times = gets(kind, &words[1], number(2), depth as usize, Duration::from_secs(seconds));
            println!("{}\t{}", times.len() as u64 * depth / seconds, within(&mut times));
        }
    }
}
