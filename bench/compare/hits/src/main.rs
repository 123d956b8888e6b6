//! How many gets of a hundred hit, by the cache and by others.
mod peers;
mod traces;
use nr::Cache;
use peers::{by_last_use, by_next_use, by_s3_fifo, by_sieve};
use std::env;
use std::io::Write;
use std::process::{Command, Stdio};
use std::thread;
use traces::{numbered, Trace, TRACES};

const CAPACITIES: [usize; 4] = [1000, 5000, 10_000, 25_000];

fn by_cache(trace: &[u64], capacity: usize) -> u64 {
    let cache = Cache::builder().capacity(capacity).threads(1).open().expect("there is memory");
    let mut reader = cache.reader().expect("it has a reader");
    for key in trace {
        reader.get_with(key, || ());
    }
    cache.stats().hits
}

/// By Caffeine, where the environment's CAFFEINE names its archive, and the folder of the class Hits.
fn by_caffeine(trace: &[u64], capacity: usize) -> Option<u64> {
    let mut java = Command::new("java")
        .arg("-cp")
        .args([env::var_os("CAFFEINE")?, "Hits".into(), capacity.to_string().into()])
        .stdin(Stdio::piped())
        .stdout(Stdio::piped())
        .spawn()
        .expect("java runs");
    let numbers = [trace.len() as u64].into_iter().chain(trace.iter().copied());
    let bytes: Vec<u8> = numbers.flat_map(u64::to_be_bytes).collect();
    java.stdin.take().expect("it is piped").write_all(&bytes).expect("java reads it all");
    let told = java.wait_with_output().expect("java ends").stdout;
    Some(String::from_utf8_lossy(&told).trim().parse().expect("it tells its hits"))
}

/// A line of the table: what each makes of the trace with that capacity.
fn line(&(name, keys): &Trace, capacity: usize) -> String {
    let trace = numbered(&keys(capacity));
    let share = |hits: u64| format!("\t{:.1}", 100.0 * hits as f64 / trace.len() as f64);
    let caffeine = by_caffeine(&trace, capacity).map_or("\t-".to_string(), share);
    let peers = [by_last_use, by_s3_fifo, by_sieve, by_next_use];
    let shares: String = peers.iter().map(|peer| share(peer(&trace, capacity))).collect();
    format!("{name}\t{capacity}{}{caffeine}{shares}", share(by_cache(&trace, capacity)))
}

fn main() {
    println!("trace\tcapacity\tthis cache\tCaffeine\tleast recently used\tS3-FIFO\tSIEVE\tperfect");
    for trace in &TRACES {
        let lines = thread::scope(|scope| {
            let threads = CAPACITIES.map(|capacity| scope.spawn(move || line(trace, capacity)));
            threads.map(|thread| thread.join().expect("it ends"))
        });
        lines.iter().for_each(|line| println!("{line}"));
    }
}
