//! SQLite alone behind the same protocol, to measure beside the server: each client has a thread and a handle of the base,
//! which answers each of its GETs.
//!   alone DATABASE
use base::{Base, Query};
use edge_common::command::{command, Bounds};
use edge_common::{ending::Ending, resp::bulk};
use std::net::{TcpListener, TcpStream};
use std::{env, error::Error, fmt::Write as _, io, io::Read, io::Write, process, thread};

const BOUNDS: Bounds = Bounds { words: 255, bytes: 65_536 };

fn reply(words: &[&str], base: &mut Base) -> Result<String, String> {
    let [get, article] = words else { return Ok("+PONG\r\n".into()) };
    if !get.eq_ignore_ascii_case("GET") {
        return Err("it answers GET alone".into());
    }
    let mut text = String::new();
    base.run(Query::Rows, article, &[])?.iter().for_each(|row| _ = write!(text, "{}:{} ", row.a, row.b));
    Ok(bulk(text.trim_end()))
}

fn serve(mut client: TcpStream, mut base: Base) -> io::Result<()> {
    client.set_nodelay(true)?;
    let (mut came, mut room) = (Vec::new(), [0; 16_384]);
    loop {
        let (mut done, mut replies) = (0, Vec::new());
        while let Ok(Some((words, size))) = command(&came[done..], &BOUNDS) {
            let reply = words.map_err(String::from).and_then(|words| reply(&words, &mut base));
            replies.extend(reply.unwrap_or_else(|why| format!("-ERR {why}\r\n")).into_bytes());
            done += size;
        }
        client.write_all(&replies)?;
        came.drain(..done);
        match client.read(&mut room)? {
            0 => return Ok(()),
            size => came.extend(&room[..size]),
        }
    }
}

fn main() -> Result<(), Box<dyn Error>> {
    let path = env::args().nth(1).ok_or("DATABASE")?;
    let (listener, ending) = (TcpListener::bind("127.0.0.1:0")?, Ending::new()?);
    println!("listening on {}", listener.local_addr()?);
    thread::spawn(move || {
        ending.wait();
        process::exit(0)
    });
    for client in listener.incoming() {
        let (client, base) = (client?, Base::open(&path, 5_000, 0)?);
        thread::spawn(move || serve(client, base));
    }
    Ok(())
}
