//! What watches a server asks by HTTP: the page of a path, by a connection each.
use std::io::{self, BufRead, BufReader, Read, Write};
use std::net::{TcpListener, TcpStream};
use std::time::Duration;

pub const OK: &str = "200 OK";
pub const NOT_FOUND: &str = "404 Not Found";
pub const FAULT: &str = "500 Internal Server Error";
pub const UNAVAILABLE: &str = "503 Service Unavailable";

const WAIT: Duration = Duration::from_secs(2);
/// Of a request's head, in bytes.
const MOST: u64 = 8192;

/// One after another: who asks is a machine or two. `page` gives a status and a text of the path that is asked for.
pub fn run(listener: &TcpListener, page: impl Fn(&str) -> (&'static str, String)) {
    for client in listener.incoming().flatten() {
        // That who asked has gone is no fault.
        _ = answer(&client, &page);
    }
}

fn answer(mut client: &TcpStream, page: impl Fn(&str) -> (&'static str, String)) -> io::Result<()> {
    client.set_read_timeout(Some(WAIT))?;
    client.set_write_timeout(Some(WAIT))?;
    let mut lines = BufReader::new(client.take(MOST)).lines();
    let first = lines.next().transpose()?.unwrap_or_default();
    for line in lines {
        if line?.is_empty() {
            break;
        }
    }
    let (status, body) = match first.split(' ').take(2).collect::<Vec<_>>()[..] {
        ["GET", path] => page(path),
        _ => (NOT_FOUND, String::new()),
    };
    let length = body.len();
    let head = "Content-Type: text/plain; version=0.0.4\r\nConnection: close\r\nContent-Length:";
    client.write_all(format!("HTTP/1.1 {status}\r\n{head} {length}\r\n\r\n{body}").as_bytes())
}
