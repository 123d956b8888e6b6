//! A client of the Redis protocol, and numbers that look random.
use std::io::{BufRead, BufReader, Read, Write};
use std::net::TcpStream;
use std::time::Duration;

pub struct Client(BufReader<TcpStream>);

#[allow(dead_code)]
impl Client {
    /// One that panics where it gets no reply for ten seconds.
    pub fn connect(port: &str) -> Client {
        let stream = TcpStream::connect(format!("127.0.0.1:{port}")).expect("the server listens");
        stream.set_nodelay(true).unwrap();
        stream.set_read_timeout(Some(Duration::from_secs(10))).unwrap();
        stream.set_write_timeout(Some(Duration::from_secs(10))).unwrap();
        Client(BufReader::new(stream))
    }

    pub fn send(&mut self, text: &str) {
        self.0.get_mut().write_all(text.as_bytes()).expect("the server reads");
    }

    /// Sends what the other side may not want any more: whether it does.
    pub fn sends(&mut self, text: &str) -> bool {
        self.0.get_mut().write_all(text.as_bytes()).is_ok()
    }

    /// Whether the other side has ended the connection.
    pub fn has_ended(&mut self) -> bool {
        let waits = self.0.get_mut().set_read_timeout(Some(Duration::from_millis(10)));
        waits.is_ok() && self.0.read(&mut [0]).is_ok_and(|size| size == 0)
    }

    /// The next reply: a text, or a line with its first sign.
    pub fn reply(&mut self) -> String {
        let mut line = String::new();
        self.0.read_line(&mut line).expect("each command is answered");
        let line = line.trim_end();
        let Some(length) = line.strip_prefix('$').and_then(|length| length.parse::<usize>().ok()) else {
            return line.into();
        };
        let mut text = vec![0; length + 2];
        self.0.read_exact(&mut text).expect("a text is as long as told");
        text.truncate(length);
        String::from_utf8(text).expect("the server's texts are UTF-8")
    }

    pub fn ask(&mut self, line: &str) -> String {
        self.send(&format!("{line}\r\n"));
        self.reply()
    }
}

#[allow(dead_code)]
pub struct Dice(pub u64);

#[allow(dead_code)]
impl Dice {
    pub fn roll(&mut self) -> u64 {
        self.0 ^= self.0 << 13;
        self.0 ^= self.0 >> 7;
        self.0 ^= self.0 << 17;
        self.0
    }
}
