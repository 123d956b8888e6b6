//! Eight clients vote and read, and each answer is compared with what the base may have held between the question and
//! the answer: each vote that was acknowledged before the one, and none that was taken away by then or never given.
//! Then clients break off in the middle of a line, and STATS must balance.
//!   check PORT SECONDS LIMIT
mod client;
use client::{Client, Dice};
use std::collections::HashMap;
use std::sync::atomic::{AtomicU64, Ordering::SeqCst};
use std::sync::Mutex;
use std::time::{Duration, Instant};
use std::{env, thread};

const CLIENTS: u64 = 8;
const ARTICLES: u64 = 300;
/// The most votes of a client for an article: all of them are below what an article may have.
const MOST: usize = 7;
const NEVER: u64 = u64::MAX;

/// A vote in the order of all that the clients did: when it was sent and acknowledged, and when its end was.
struct Vote {
    sent: u64,
    done: u64,
    end_sent: u64,
    end_done: u64,
}

static NOW: AtomicU64 = AtomicU64::new(0);
static GETS: AtomicU64 = AtomicU64::new(0);

fn now() -> u64 {
    NOW.fetch_add(1, SeqCst)
}

/// Of each article its votes by their rows; no row is voted twice.
type Votes = Vec<Mutex<HashMap<(u64, u64), Vote>>>;

/// Compares an answer with the votes; `own` is a vote that the same client sent before the question.
fn compare(votes: &HashMap<(u64, u64), Vote>, answer: &str, begin: u64, end: u64, own: Option<(u64, u64)>) {
    let row = |text: &str| text.split_once(':').map(|(user, weight)| (user.parse().unwrap(), weight.parse().unwrap()));
    let rows: Vec<(u64, u64)> = answer.split_whitespace().map(|text| row(text).expect(answer)).collect();
    assert!(rows.is_sorted() && rows.windows(2).all(|two| two[0] != two[1]), "not in order: {answer}");
    for row in &rows {
        let vote = votes.get(row).unwrap_or_else(|| panic!("{row:?} was never voted"));
        assert!(vote.sent < end, "{row:?} was voted later");
        assert!(vote.end_done > begin, "{row:?} was taken away before");
    }
    for (row, vote) in votes {
        let must = (vote.done < begin || Some(*row) == own) && vote.end_sent > end;
        assert!(!must || rows.binary_search(row).is_ok(), "{row:?} was acknowledged before, and is not there");
    }
}

fn get(client: &mut Client, votes: &Votes, article: u64) {
    let begin = now();
    let answer = client.ask(&format!("GET check:{article}"));
    GETS.fetch_add(1, SeqCst);
    compare(&votes[article as usize].lock().unwrap(), &answer, begin, now(), None);
}

/// Votes, and asks in the same breath.
fn vote(client: &mut Client, votes: &Votes, article: u64, row: (u64, u64)) {
    let (user, weight) = row;
    let begin = now();
    let vote = Vote { sent: begin, done: NEVER, end_sent: NEVER, end_done: NEVER };
    votes[article as usize].lock().unwrap().insert(row, vote);
    client.send(&format!("VOTE check:{article} {user} {weight}\r\nGET check:{article}\r\n"));
    assert_eq!(client.reply(), "+OK");
    let done = now();
    let answer = client.reply();
    GETS.fetch_add(1, SeqCst);
    let mut votes = votes[article as usize].lock().unwrap();
    compare(&votes, &answer, begin, now(), Some(row));
    votes.get_mut(&row).unwrap().done = done;
}

fn unvote(client: &mut Client, votes: &Votes, article: u64, row: (u64, u64)) {
    votes[article as usize].lock().unwrap().get_mut(&row).unwrap().end_sent = now();
    assert_eq!(client.ask(&format!("UNVOTE check:{article} {} {}", row.0, row.1)), "+OK");
    votes[article as usize].lock().unwrap().get_mut(&row).unwrap().end_done = now();
}

fn play(port: &str, votes: &Votes, number: u64, until: Instant) {
    let mut client = Client::connect(port);
    let mut dice = Dice(number + 1);
    let mut own: Vec<Vec<(u64, u64)>> = vec![Vec::new(); ARTICLES as usize];
    for turn in 0.. {
        if Instant::now() > until {
            return;
        }
        // Half of what is done is done to few articles.
        let article = dice.roll() % if dice.roll() % 2 == 0 { 10 } else { ARTICLES };
        let mine = &mut own[article as usize];
        match dice.roll() % 10 {
            0 | 1 if mine.len() < MOST => {
                let row = (turn * CLIENTS + number, dice.roll() % 100);
                vote(&mut client, votes, article, row);
                mine.push(row);
            }
            2 if !mine.is_empty() => {
                let row = mine.swap_remove(dice.roll() as usize % mine.len());
                unvote(&mut client, votes, article, row);
            }
            _ => get(&mut client, votes, article),
        }
    }
}

fn stats(port: &str) -> (HashMap<String, u64>, String) {
    let text = Client::connect(port).ask("STATS");
    let number = |line: &str| line.split_once(':').map(|(name, number)| (name.to_owned(), number.parse().unwrap()));
    (text.lines().filter_map(number).collect(), text.replace('\n', " "))
}

/// Clients break off in the middle of a line, and are forgotten.
fn break_off(port: &str) {
    for number in 0..40 {
        let mut client = Client::connect(port);
        assert_eq!(client.ask("PING"), "+PONG");
        client.send(
            ["GET check:1", "*3\r\n$4\r\nVO", "VOTE check:1 1 1\r\nUNV", "*2\r\n$3\r\nGET\r\n$7\r\nche"][number % 4],
        );
    }
    let until = Instant::now() + Duration::from_secs(10);
    while stats(port).0["clients"] > 1 {
        assert!(Instant::now() < until, "who broke off is still there: {}", stats(port).1);
        thread::sleep(Duration::from_millis(10));
    }
}

fn balance(port: &str, limit: u64) {
    let (stats, text) = stats(port);
    assert_eq!(stats["hits"] + stats["misses"], GETS.load(SeqCst), "each GET is a hit or a miss: {text}");
    assert!(stats["held"] <= limit && stats["evictions"] > 0, "{text}");
    assert!(stats["loads"] >= stats["held"] + stats["evictions"] && stats["failures"] == 0, "{text}");
    assert!(stats["outdated"] > 0, "no vote comes within a load: {text}");
    println!("check: {} moments, {} gets as they may be, {text}", NOW.load(SeqCst), GETS.load(SeqCst));
}

fn main() {
    let words: Vec<String> = env::args().collect();
    let (port, number) = (&words[1], |place: usize| words[place].parse::<u64>().unwrap());
    let votes: Votes = (0..ARTICLES).map(|_| Mutex::default()).collect();
    let until = Instant::now() + Duration::from_secs(number(2));
    thread::scope(|scope| {
        for client in 0..CLIENTS {
            let votes = &votes;
            scope.spawn(move || play(port, votes, client, until));
        }
    });
    balance(port, number(3));
    break_off(port);
}
