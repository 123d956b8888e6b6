//! The vote workload of Noria's authors: of a hundred operations 95 read an article with the count of its votes, and five
//! vote. Articles are drawn by Zipf's law. Clients do one operation after another; each has a connection to PostgreSQL for
//! what isn't cached and for votes.
//!   vote MODE SECONDS CLIENTS ADDRESS base|memcached|edge [PORT]..
//! MODE is counts, where a vote is an UPDATE of a number, or rows, where it is an INSERT. First each article is read once at
//! each server, and then the clients begin, for a fourth of the time before what is counted. Prints operations a second, the
//! microseconds within which 50, 99 and 99.9 of 100 reads were done, of the articles that were voted for those that are stale
//! a second later, and those that are cached.
use edge_common::postgres::pq::Connection;
use std::collections::{HashMap, HashSet};
use std::io::{BufRead, BufReader, Read, Write};
use std::net::TcpStream;
use std::sync::Barrier;
use std::time::{Duration, Instant};
use std::{env, thread};

const ARTICLES: usize = 50_000;
const SKEW: f64 = 0.99;
const VOTES_OF_HUNDRED: u64 = 5;

/// Numbers that look random, others for each seed.
struct Dice(u64);

impl Dice {
    fn roll(&mut self) -> u64 {
        self.0 ^= self.0 << 13;
        self.0 ^= self.0 >> 7;
        self.0 ^= self.0 << 17;
        self.0 >> 11
    }

    /// Below 1.
    fn part(&mut self) -> f64 {
        self.roll() as f64 / (1u64 << 53) as f64
    }
}

/// Of each article the chance that it or one before it is drawn.
struct Zipf(Vec<f64>);

impl Zipf {
    fn new() -> Zipf {
        let weights = (1..=ARTICLES).map(|rank| (rank as f64).powf(-SKEW));
        let mut sums: Vec<f64> = weights
            .scan(0.0, |sum, weight| {
                *sum += weight;
                Some(*sum)
            })
            .collect();
        let all = sums[ARTICLES - 1];
        sums.iter_mut().for_each(|sum| *sum /= all);
        Zipf(sums)
    }

    fn draw(&self, dice: &mut Dice) -> usize {
        let part = dice.part();
        self.0.partition_point(|sum| *sum < part).min(ARTICLES - 1)
    }
}

/// How votes are kept: the statements that read an article and vote, by its number.
struct Mode {
    read: &'static str,
    vote: &'static str,
    is_of_rows: bool,
}

const COUNTS: Mode = Mode {
    read: "SELECT title || ' ' || votes FROM articles WHERE id = $1",
    vote: "UPDATE articles SET votes = votes + 1 WHERE id = $1",
    is_of_rows: false,
};
const ROWS: Mode = Mode {
    read: "SELECT title || ' ' || (SELECT count(*) FROM votes WHERE article = $1) FROM articles WHERE id = $1",
    vote: "INSERT INTO votes (article) VALUES ($1)",
    is_of_rows: true,
};

struct Base(Connection);

impl Base {
    fn open(address: &str, mode: &Mode) -> Base {
        let mut connection = Connection::open(address).expect("PostgreSQL is there");
        let statements = format!("PREPARE read (int) AS {}; PREPARE vote (int) AS {}", mode.read, mode.vote);
        connection.run(&statements).expect("the tables are there");
        Base(connection)
    }

    fn read(&mut self, article: usize) -> String {
        let cells = self.0.run_prepared("read", &[&article.to_string()]).expect("PostgreSQL answers");
        cells[0][0].clone().expect("an article has a title")
    }

    fn vote(&mut self, article: usize) {
        self.0.run_prepared("vote", &[&article.to_string()]).expect("PostgreSQL takes votes");
    }
}

/// A connection whose replies are lines, and bytes after their number.
struct Wire(BufReader<TcpStream>);

impl Wire {
    fn open(port: &str) -> Wire {
        let stream = TcpStream::connect(format!("127.0.0.1:{port}")).expect("the server listens");
        stream.set_nodelay(true).unwrap();
        Wire(BufReader::new(stream))
    }

    fn send(&mut self, text: &str) {
        self.0.get_mut().write_all(text.as_bytes()).unwrap();
    }

    fn line(&mut self) -> String {
        let mut line = String::new();
        self.0.read_line(&mut line).unwrap();
        line.trim_end().into()
    }

    fn bytes(&mut self, count: usize) -> String {
        let mut bytes = vec![0; count + 2];
        self.0.read_exact(&mut bytes).unwrap();
        String::from_utf8(bytes[..count].to_vec()).unwrap()
    }
}

/// What stands before PostgreSQL.
enum Front {
    None,
    Memcached(Wire),
    Edge(Wire),
}

impl Front {
    fn open(kind: &str, ports: &[String], client: usize) -> Front {
        let wire = || Wire::open(&ports[client % ports.len()]);
        match kind {
            "memcached" => Front::Memcached(wire()),
            "edge" => Front::Edge(wire()),
            _ => Front::None,
        }
    }

    /// The article's title and count, where it is cached.
    fn cached(&mut self, mode: &Mode, article: usize) -> Option<String> {
        match self {
            Front::None => None,
            Front::Memcached(wire) => {
                wire.send(&format!("get {article}\r\n"));
                let line = wire.line();
                let count = line.strip_prefix("VALUE ")?.rsplit(' ').next()?.parse().ok()?;
                let value = wire.bytes(count);
                wire.line();
                Some(value)
            }
            Front::Edge(wire) if mode.is_of_rows => {
                wire.send(&format!("MGET titles:{article} votes:{article}\r\n"));
                assert_eq!(wire.line(), "*2");
                let cells = [cell(wire)?, cell(wire).unwrap_or("0".into())];
                Some(cells.join(" "))
            }
            Front::Edge(wire) => {
                wire.send(&format!("GET articles:{article}\r\n"));
                let row = cell(wire)?;
                Some(row.replace("\",", " ").replace('"', ""))
            }
        }
    }

    fn voted(&mut self, article: usize) {
        if let Front::Memcached(wire) = self {
            wire.send(&format!("delete {article}\r\n"));
            wire.line();
        }
    }

    fn fill(&mut self, article: usize, value: &str) {
        if let Front::Memcached(wire) = self {
            wire.send(&format!("set {article} 0 0 {}\r\n{value}\r\n", value.len()));
            wire.line();
        }
    }
}

/// The one row of an edge's reply, without its brackets and, where it has one cell, quotes.
fn cell(wire: &mut Wire) -> Option<String> {
    let line = wire.line();
    let count = line.strip_prefix('$').unwrap_or_else(|| panic!("an edge says {line}")).parse().ok()?;
    let row = wire.bytes(count);
    let cells = row.trim_matches(['[', ']']);
    Some(if cells.contains("\",") { cells.into() } else { cells.trim_matches('"').into() })
}

/// What a client has done.
#[derive(Default)]
struct Done {
    /// How many microseconds each read took, from the begin on.
    times: Vec<u64>,
    votes: u64,
    /// All articles that it has voted for.
    voted: HashSet<usize>,
}

struct Run<'a> {
    mode: &'a Mode,
    address: &'a str,
    kind: &'a str,
    ports: &'a [String],
    zipf: Zipf,
    time: Duration,
    clients: usize,
    /// All have read what they read first.
    are_ready: Barrier,
}

impl Run<'_> {
    fn client(&self, number: usize) -> Done {
        let (mut base, mut front) = (Base::open(self.address, self.mode), Front::open(self.kind, self.ports, number));
        // The clients of one server share the articles.
        let servers = self.ports.len().max(1);
        for article in (number / servers..ARTICLES).step_by((self.clients / servers).max(1)) {
            self.read(&mut base, &mut front, article);
        }
        self.are_ready.wait();
        let begin = Instant::now() + self.time / 4;
        let end = begin + self.time;
        let (mut dice, mut done) = (Dice(number as u64 * 7919 + 12345), Done::default());
        loop {
            let (article, begun) = (self.zipf.draw(&mut dice), Instant::now());
            if begun > end {
                return done;
            }
            if dice.roll() % 100 < VOTES_OF_HUNDRED {
                base.vote(article);
                front.voted(article);
                done.votes += u64::from(begun > begin);
                done.voted.insert(article);
                continue;
            }
            self.read(&mut base, &mut front, article);
            if begun > begin {
                done.times.push(begun.elapsed().as_micros() as u64);
            }
        }
    }

    fn read(&self, base: &mut Base, front: &mut Front, article: usize) {
        if front.cached(self.mode, article).is_none() {
            let value = base.read(article);
            front.fill(article, &value);
        }
    }

    /// How many of the articles are cached otherwise than they are, and how many are cached, at each server.
    fn stale(&self, articles: &HashSet<usize>) -> (usize, usize) {
        let mut base = Base::open(self.address, self.mode);
        let right: HashMap<usize, String> = articles.iter().map(|article| (*article, base.read(*article))).collect();
        let (mut stale, mut all) = (0, 0);
        for place in 0..self.ports.len() {
            let mut front = Front::open(self.kind, self.ports, place);
            for (article, right) in &right {
                let Some(cached) = front.cached(self.mode, *article) else { continue };
                all += 1;
                stale += usize::from(cached != *right);
            }
        }
        (stale, all)
    }
}

fn main() {
    let words: Vec<String> = env::args().skip(1).collect();
    let [mode, seconds, clients, address, kind, ports @ ..] = &words[..] else {
        panic!("MODE SECONDS CLIENTS ADDRESS KIND")
    };
    let mode = if mode == "rows" { &ROWS } else { &COUNTS };
    let (seconds, clients): (u64, usize) = (seconds.parse().unwrap(), clients.parse().unwrap());
    let (time, are_ready) = (Duration::from_secs(seconds), Barrier::new(clients));
    let run = Run { mode, address, kind, ports, zipf: Zipf::new(), time, clients, are_ready };
    let done: Vec<_> = thread::scope(|scope| {
        let run = &run;
        let clients: Vec<_> = (0..clients).map(|number| scope.spawn(move || run.client(number))).collect();
        clients.into_iter().map(|client| client.join().unwrap()).collect()
    });
    let votes: u64 = done.iter().map(|done| done.votes).sum();
    let voted: HashSet<usize> = done.iter().flat_map(|done| done.voted.iter().copied()).collect();
    let mut times: Vec<u64> = done.into_iter().flat_map(|done| done.times).collect();
    times.sort_unstable();
    let within = |part: f64| times[((times.len() - 1) as f64 * part) as usize];
    thread::sleep(Duration::from_secs(1));
    let (stale, all) = run.stale(&voted);
    let rate = (times.len() as u64 + votes) / seconds;
    println!("{rate}\t{}\t{}\t{}\t{stale}\t{all}", within(0.5), within(0.99), within(0.999));
}
