//! Edges as processes, and clients of theirs that bear it when one ends.
#![allow(dead_code)]
use edge_common::postgres::pq::{Connection, Table};
use std::fs::{self, File};
use std::io::{BufRead, BufReader, ErrorKind, Read, Result, Write};
use std::net::{SocketAddr, TcpStream};
use std::path::PathBuf;
use std::process::{Child, Command, Stdio};
use std::sync::atomic::{AtomicU32, Ordering::SeqCst};
use std::time::{Duration, Instant};
use std::{env, thread};

/// Only against hanging for ever: no result depends on it.
const LONG: Duration = Duration::from_secs(60);
const VIEWS: &str = include_str!("cases.toml");

pub struct Edge {
    program: String,
    /// Its configuration, but for the port.
    lines: String,
    file: PathBuf,
    process: Child,
    pub port: u16,
    said: PathBuf,
}

impl Edge {
    /// One that listens, with these lines of its source.
    pub fn start(program: &str, address: &str, lines: &str) -> Edge {
        Edge::listening(program, address, lines, "")
    }

    /// With lines of where it listens too.
    pub fn listening(program: &str, address: &str, lines: &str, listen: &str) -> Edge {
        static NEXT: AtomicU32 = AtomicU32::new(0);
        let path = |kind: &str| env::current_exe().unwrap().with_extension(format!("{kind}-{}", NEXT.load(SeqCst)));
        NEXT.fetch_add(1, SeqCst);
        let (file, said) = (path("toml"), path("said"));
        let lines =
            format!("[source]\naddress = \"{address}\"\n{lines}\n{VIEWS}\n[listen]\ntoken_wait = 30\n{listen}\n");
        let process = started(program, &lines, 0, &file, &said);
        let mut edge = Edge { program: program.into(), lines, file, process, port: 0, said };
        edge.says("listens on 127.");
        edge.port = edge.said().lines().find_map(|line| line.rsplit_once(':')?.1.parse().ok()).unwrap();
        edge
    }

    /// By SIGKILL.
    pub fn kill(&mut self) {
        self.process.kill().unwrap();
        self.process.wait().unwrap();
    }

    /// At the same port.
    pub fn start_again(&mut self) {
        self.process = started(&self.program, &self.lines, self.port, &self.file, &self.said);
        self.says("listens on 127.");
    }

    fn said(&self) -> String {
        fs::read_to_string(&self.said).unwrap()
    }

    pub fn says(&self, what: &str) {
        until(&format!("the edge says '{what}'"), || self.said().contains(what));
    }

    pub fn ends(&mut self) -> Option<i32> {
        let mut status = None;
        until("the edge ends", || {
            status = self.process.try_wait().unwrap();
            status.is_some()
        });
        status.unwrap().code()
    }

    pub fn signal(&self, name: &str) {
        signal(name, &self.process.id().to_string());
    }

    /// The names of its threads.
    pub fn threads(&self) -> Vec<String> {
        let tasks = fs::read_dir(format!("/proc/{}/task", self.process.id())).unwrap();
        let name = |task: Result<fs::DirEntry>| fs::read_to_string(task.unwrap().path().join("comm")).unwrap();
        tasks.map(|task| name(task).trim_end().into()).collect()
    }

    /// A text, a line with its first sign, or the parts of an array with spaces between. Nil is nothing.
    pub fn ask(&self, line: &str) -> String {
        self.client().ask(line).expect("the edge answers")
    }

    pub fn asks(&self, line: &str) -> thread::JoinHandle<String> {
        let (client, line) = (self.client(), line.to_owned());
        thread::spawn(move || ({ client }).ask(&line).expect("the edge answers"))
    }

    pub fn client(&self) -> Client {
        Client::connect(self.port).expect("the edge listens")
    }

    pub fn count(&self, name: &str) -> u64 {
        let text = self.ask("INFO");
        let value = text.lines().find_map(|line| line.strip_prefix(name)?.strip_prefix(':'));
        value.and_then(|value| value.parse().ok()).expect("it is counted")
    }

    pub fn follows(&self) {
        until("the edge follows", || self.count("following") == 1);
    }

    /// What all three views have of an article, which is the same.
    pub fn get(&self, article: &str, token: &str) -> String {
        self.rows(article, token).unwrap_or_else(|told| panic!("{article}: {told}"))
    }

    /// The same, or what is said where there is no answer, or where the views differ.
    pub fn rows(&self, article: &str, token: &str) -> std::result::Result<String, String> {
        let mut all = [const { Vec::new() }; 3];
        for (view, numbers) in ["votes", "kept", "sums"].iter().zip(&mut all) {
            let told = self.client().ask(&format!("GET {view}:{article} {token}")).map_err(|_| "it has gone")?;
            if told.starts_with('-') {
                return Err(told);
            }
            *numbers = numbers_in(&told);
        }
        let [votes, kept, sums] = all;
        let [votes, kept] = [votes, kept].map(|numbers| rows_of(&numbers));
        let sum = votes.iter().map(|(_, weight)| weight).sum();
        let wanted = votes.iter().map(|(voter, _)| *voter).max().map(|max| vec![votes.len() as u64, sum, max]);
        let is_same = votes == kept && wanted.clone().unwrap_or_default() == sums;
        is_same.then(|| text_of(&votes)).ok_or_else(|| format!("the views differ: {votes:?}, {kept:?}, {sums:?}"))
    }

    /// The same of what it holds.
    pub fn held(&self, article: &str, token: &str) -> String {
        let before = self.count("upqueries");
        let told = self.get(article, token);
        assert_eq!(self.count("upqueries"), before, "{article} is held");
        told
    }
}

impl Drop for Edge {
    fn drop(&mut self) {
        _ = self.process.kill();
        _ = self.process.wait();
    }
}

fn started(program: &str, lines: &str, port: u16, file: &PathBuf, said: &PathBuf) -> Child {
    fs::write(file, format!("{lines}port = {port}\n")).unwrap();
    let errors = File::create(said).unwrap();
    Command::new(program).arg("serve").arg(file).stdin(Stdio::null()).stderr(errors).spawn().unwrap()
}

fn numbers_in(text: &str) -> Vec<u64> {
    text.split(|sign: char| !sign.is_ascii_digit()).filter_map(|digits| digits.parse().ok()).collect()
}

fn rows_of(numbers: &[u64]) -> Vec<(u64, u64)> {
    let mut rows: Vec<_> = numbers.chunks(2).map(|row| (row[0], row[1])).collect();
    rows.sort_unstable();
    rows
}

/// The rows of an answer, in their order.
pub fn rows_in(answer: &str) -> Vec<(u64, u64)> {
    rows_of(&numbers_in(answer))
}

fn text_of(rows: &[(u64, u64)]) -> String {
    rows.iter().map(|(voter, weight)| format!("{voter}:{weight}")).collect::<Vec<_>>().join(" ")
}

pub fn signal(name: &str, process: &str) {
    assert!(Command::new("kill").args([&format!("-{name}"), process]).status().unwrap().success());
}

pub fn until(what: &str, mut is_so: impl FnMut() -> bool) {
    let begin = Instant::now();
    while !is_so() {
        assert!(begin.elapsed() < LONG, "waited in vain: {what}");
        thread::sleep(Duration::from_millis(5));
    }
}

pub struct Client(BufReader<TcpStream>);

impl Client {
    pub fn connect(port: u16) -> Result<Client> {
        let stream = TcpStream::connect(("127.0.0.1", port))?;
        stream.set_nodelay(true)?;
        stream.set_read_timeout(Some(LONG))?;
        Ok(Client(BufReader::new(stream)))
    }

    pub fn ask(&mut self, line: &str) -> Result<String> {
        self.send(&format!("{line}\r\n"))
    }

    /// A command whose words may have any signs.
    pub fn ask_words(&mut self, words: &[&str]) -> Result<String> {
        let words = words.iter().map(|word| format!("${}\r\n{word}\r\n", word.len())).collect::<Vec<_>>();
        self.send(&format!("*{}\r\n{}", words.len(), words.concat()))
    }

    fn send(&mut self, bytes: &str) -> Result<String> {
        self.say(bytes)?;
        self.reply()
    }

    /// For another thread to send by.
    pub fn stream(&self) -> TcpStream {
        self.0.get_ref().try_clone().unwrap()
    }

    /// Whether all that it sent has come to the edge's side, which on a busy system takes a while.
    pub fn has_sent(&self) -> bool {
        let port = |address: Result<SocketAddr>| format!(":{:04X}", address.unwrap().port());
        let (from, to) = (port(self.0.get_ref().local_addr()), port(self.0.get_ref().peer_addr()));
        let sockets = fs::read_to_string("/proc/net/tcp").unwrap();
        let mut lines = sockets.lines().map(|line| line.split_whitespace().collect::<Vec<_>>());
        let own = lines.find(|words| words[1].ends_with(&from) && words[2].ends_with(&to));
        own.is_some_and(|words| words[4].starts_with("00000000:"))
    }

    /// Sends without a look for replies.
    pub fn say(&mut self, bytes: &str) -> Result<()> {
        self.0.get_mut().write_all(bytes.as_bytes())
    }

    pub fn reply(&mut self) -> Result<String> {
        let mut line = String::new();
        if self.0.read_line(&mut line)? == 0 {
            return Err(ErrorKind::UnexpectedEof.into());
        }
        let line = line.trim_end();
        if let Some(count) = line.strip_prefix('*') {
            let parts: Result<Vec<_>> = (0..count.parse().unwrap()).map(|_| self.reply()).collect();
            return Ok(parts?.join(" "));
        }
        let Some(size) = line.strip_prefix('$') else { return Ok(line.into()) };
        let Ok(size) = size.parse::<usize>() else { return Ok(String::new()) };
        let mut text = vec![0; size + 2];
        self.0.read_exact(&mut text)?;
        Ok(String::from_utf8(text[..size].to_vec()).unwrap())
    }
}

/// A read that brings it sees all that was committed before.
pub fn token(base: &mut Connection) -> String {
    // This commit flushes those before it that were not waited for, so it must end before the place is read.
    last(base, "SELECT pg_logical_emit_message(true, 'now', '')");
    last(base, "SELECT pg_current_wal_flush_lsn()").concat().concat()
}

/// Of some statements, the last one's rows.
pub fn last(base: &mut Connection, sql: &str) -> Table {
    base.run(sql).unwrap_or_else(|fault| panic!("{sql}: {fault}")).pop().unwrap_or_default()
}
