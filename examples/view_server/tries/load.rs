//! Clients that each GET one article after another, for some seconds; tells GETs a second, and the microseconds within
//! which half, 99 and 99.9 of 100 GETs were answered.
//!   load PORT CLIENTS SECONDS uniform|skewed    (SECONDS 0: each article once)
mod client;
use client::{Client, Dice};
use std::time::{Duration, Instant};
use std::{env, thread};

const ARTICLES: u64 = 50_000;

/// How likely each article and those before it are: alike, or the n-th as 1 / n. Neighbours in this order are far apart
/// in the base's.
fn shares(is_skewed: bool) -> Vec<f64> {
    let weight = |place: u64| if is_skewed { 1.0 / (place + 1) as f64 } else { 1.0 };
    let sum: f64 = (0..ARTICLES).map(weight).sum();
    (0..ARTICLES)
        .scan(0.0, |share, place| {
            *share += weight(place) / sum;
            Some(*share)
        })
        .collect()
}

fn get(client: &mut Client, place: u64) {
    let article = place * 7919 % ARTICLES;
    let answer = client.ask(&format!("GET article:{article:012}"));
    assert!(answer.split(' ').count() == 20, "article {article} has 20 votes: {answer}");
}

fn read(port: &str, number: u64, time: Duration, shares: &[f64]) -> Vec<u32> {
    let mut client = Client::connect(port);
    let mut dice = Dice(number * 7919 + 1);
    let (begin, mut times) = (Instant::now(), Vec::new());
    while begin.elapsed() < time {
        let part = dice.roll() as f64 / u64::MAX as f64;
        let place = shares.partition_point(|share| *share < part).min(shares.len() - 1);
        let asked = Instant::now();
        get(&mut client, place as u64);
        times.push(asked.elapsed().as_nanos() as u32);
    }
    times
}

fn main() {
    let words: Vec<String> = env::args().collect();
    let (port, clients, seconds) = (&words[1], words[2].parse::<u64>().unwrap(), words[3].parse::<u64>().unwrap());
    if seconds == 0 {
        let mut client = Client::connect(port);
        return (0..ARTICLES).for_each(|place| get(&mut client, place));
    }
    let shares = shares(words[4] == "skewed");
    let shares = &shares[..];
    let mut times: Vec<u32> = thread::scope(|scope| {
        let start = |number| scope.spawn(move || read(port, number, Duration::from_secs(seconds), shares));
        let readers: Vec<_> = (0..clients).map(start).collect();
        readers.into_iter().flat_map(|reader| reader.join().unwrap()).collect()
    });
    times.sort_unstable();
    let within = |part: f64| f64::from(times[((times.len() - 1) as f64 * part) as usize]) / 1000.0;
    println!("{}\t{:.0}\t{:.0}\t{:.0}", times.len() as u64 / seconds, within(0.5), within(0.99), within(0.999));
}
