//! What INFO and /metrics tell. Each thread counts in a cache line of its own, so that no read writes where another
//! does.
use crate::{lsn::Lsn, shared::Shared};
use prometheus::{IntCounter, IntGauge, Registry, TextEncoder};
use std::fmt::Write;
use std::sync::atomic::{AtomicU64, Ordering::Relaxed};

macro_rules! counts {
    ($($count:ident $name:literal $help:literal,)*) => {
        #[derive(Clone, Copy)]
        pub enum Count { $($count),* }
        const COUNTS: &[(&str, &str)] = &[$(($name, $help)),*];
    };
}

counts!(
    Hits "hits" "Reads of keys that were held.",
    Misses "misses" "Reads of keys that were not held.",
    Waits "waits" "Misses whose key was being asked for already.",
    Upqueries "upqueries" "Misses whose key PostgreSQL was asked for.",
    Statements "statements" "Statements that asked PostgreSQL for keys, many keys each.",
    Fills "fills" "Keys that were filled with the rows of an answer.",
    Evictions "evictions" "Keys that were dropped to make room.",
    TooLarge "too_large" "Answers that were not held, since one alone is over a bound.",
    Transactions "transactions" "Transactions of the stream that were applied.",
    Updates "updates" "Changes of a key that were applied.",
    Repeats "repeats" "Transactions of the stream that had come before and were dropped.",
    Writes "writes" "Writes of clients that were committed.",
    Skips "skips" "Changes of a key that its rows had already.",
    Replays "replays" "Answers that changes of the log were added to.",
    Again "again" "Requests that were made again, since the answer's snapshot saw too little.",
    Losses "losses" "Times that the edge has emptied itself and begun anew.",
    Untold "untold" "Keys that were dropped because a change told too little to update them.",
    Disagreements "disagreements" "Keys whose rows and changes don't go together; 0 unless the edge has a fault.",
    Clients "clients" "Clients that were let in.",
    Refused "refused_clients" "Clients that found no room.",
);

#[derive(Default)]
#[repr(align(64))]
pub struct Counts([AtomicU64; COUNTS.len()]);

impl Counts {
    pub fn up(&self, what: Count) {
        self.0[what as usize].fetch_add(1, Relaxed);
    }
}

/// What is so now, as the dataflow tells it.
#[derive(Default)]
pub struct Now {
    pub keys: AtomicU64,
    pub bytes: AtomicU64,
    pub log: AtomicU64,
    pub waiting: AtomicU64,
}

struct Number {
    name: &'static str,
    help: &'static str,
    is_count: bool,
    number: u64,
}

/// Counts are the sums over all threads.
fn numbers(shared: &Shared) -> Vec<Number> {
    let all = || shared.counts.iter().chain([&shared.work]);
    let sum = |place: usize| all().map(|counts| counts.0[place].load(Relaxed)).sum();
    let counts =
        (0..).zip(COUNTS).map(|(place, &(name, help))| Number { name, help, is_count: true, number: sum(place) });
    let Now { keys, bytes, log, waiting } = &shared.now;
    let now = [
        ("keys", "Keys that are held.", keys.load(Relaxed)),
        ("bytes", "Bytes of the rows, values and keys that are held, by estimate.", bytes.load(Relaxed)),
        ("log", "Transactions that a snapshot may not see yet.", log.load(Relaxed)),
        ("waiting", "Keys that clients wait for.", waiting.load(Relaxed)),
        ("following", "1 while the edge follows PostgreSQL by a slot, and 0 otherwise.", shared.is_following().into()),
        ("silence_milliseconds", "Time since the stream's last word.", shared.silence().as_millis() as u64),
        ("applied", "Place in PostgreSQL's log up to which changes are applied, in bytes.", shared.progress.reached()),
    ];
    let now = now.map(|(name, help, number)| Number { name, help, is_count: false, number });
    counts.chain(now).collect()
}

/// A line each, as Redis has them.
pub fn info(shared: &Shared) -> String {
    let mut text = String::from("# Edge\r\n");
    for Number { name, number, .. } in numbers(shared) {
        _ = match name {
            "applied" => write!(text, "{name}:{}\r\n", Lsn(number)),
            _ => write!(text, "{name}:{number}\r\n"),
        };
    }
    text
}

/// As Prometheus reads them.
pub fn metrics(shared: &Shared) -> prometheus::Result<String> {
    let registry = Registry::new();
    for Number { name, help, is_count, number } in numbers(shared) {
        let name = format!("edge_{name}{}", if is_count { "_total" } else { "" });
        let count = IntCounter::new(&name, help)?;
        count.inc_by(number);
        let gauge = IntGauge::new(&name, help)?;
        gauge.set(number as i64);
        registry.register(if is_count { Box::new(count) } else { Box::new(gauge) })?;
    }
    TextEncoder::new().encode_to_string(&registry.gather())
}
