//! What a client says of itself, and what each server of the Redis protocol answers to: libraries and redis-cli need it
//! before they ask for anything, and at their end.
use crate::resp::{Reply, Version};

/// What is told of a server.
pub struct Host {
    pub name: &'static str,
    pub version: &'static str,
    /// What a client has to know before it may ask.
    pub password: Option<String>,
}

pub struct Guest {
    number: usize,
    version: Version,
    name: String,
    may_ask: bool,
}

/// What becomes of a command.
#[derive(Debug, PartialEq, Eq)]
pub enum Answered {
    Here,
    /// The reply is the client's last.
    ForTheLastTime,
    /// It is the server's own to answer.
    No,
}

/// The code of an error and its text.
pub type Fault = String;

pub const WRONG_COUNT: &str = "ERR wrong number of arguments";
const NO_PASSWORD: &str = "NOAUTH Authentication required.";
const WRONG_PASSWORD: &str = "WRONGPASS invalid username-password pair or user is disabled.";

impl Guest {
    /// A client that has just come; numbers tell clients apart.
    pub fn new(number: usize, host: &Host) -> Guest {
        Guest { number, version: Version::Two, name: String::new(), may_ask: host.password.is_none() }
    }

    /// A reply of the version that the client has chosen.
    pub fn reply<'a>(&self, to: &'a mut Vec<u8>) -> Reply<'a> {
        Reply { to, version: self.version }
    }

    /// Answers what isn't the server's own. Refused also where the password lacks; the command is in capitals.
    pub fn answer(&mut self, host: &Host, words: (&str, &[&str]), to: &mut Vec<u8>) -> Result<Answered, Fault> {
        let mut reply = self.reply(to);
        match words {
            ("AUTH", [password]) => self.admit(host, "default", password).map(|()| reply.ok())?,
            ("AUTH", [user, password]) => self.admit(host, user, password).map(|()| reply.ok())?,
            ("HELLO", arguments) => self.hello(host, arguments, reply)?,
            ("QUIT", []) => {
                reply.ok();
                return Ok(Answered::ForTheLastTime);
            }
            _ if !self.may_ask => return Err(NO_PASSWORD.into()),
            ("CLIENT", arguments) => self.client(arguments, reply)?,
            ("PING", []) => reply.simple("PONG"),
            ("PING", [text]) => reply.bulk(text),
            ("COMMAND", _) => reply.array(0),
            ("SELECT", ["0"]) => reply.ok(),
            ("SELECT", [_]) => return Err("ERR DB index is out of range".into()),
            ("AUTH" | "PING" | "QUIT" | "SELECT", _) => return Err(WRONG_COUNT.into()),
            _ => return Ok(Answered::No),
        }
        Ok(Answered::Here)
    }

    fn admit(&mut self, host: &Host, user: &str, password: &str) -> Result<(), Fault> {
        let Some(right) = &host.password else { return Err("ERR no password is set".into()) };
        // Each sign is looked at, whichever is wrong.
        let differs = |(a, b): (u8, u8)| u32::from(a != b);
        let wrong: u32 = right.bytes().zip(password.bytes().chain(std::iter::repeat(0))).map(differs).sum();
        self.may_ask = user == "default" && wrong == 0 && right.len() == password.len();
        self.may_ask.then_some(()).ok_or(WRONG_PASSWORD.into())
    }

    fn hello(&mut self, host: &Host, arguments: &[&str], mut reply: Reply) -> Result<(), Fault> {
        let (version, mut options) = match arguments {
            [] => (self.version, &arguments[..0]),
            ["2", options @ ..] => (Version::Two, options),
            ["3", options @ ..] => (Version::Three, options),
            _ => return Err("NOPROTO unsupported protocol version".into()),
        };
        while let [option, rest @ ..] = options {
            options = match (&*option.to_ascii_uppercase(), rest) {
                ("AUTH", [user, password, rest @ ..]) => self.admit(host, user, password).map(|()| rest)?,
                ("SETNAME", [name, rest @ ..]) => {
                    self.name = (*name).into();
                    rest
                }
                _ => return Err("ERR Syntax error in HELLO".into()),
            };
        }
        if !self.may_ask {
            return Err(NO_PASSWORD.into());
        }
        (self.version, reply.version) = (version, version);
        self.greet(host, reply);
        Ok(())
    }

    fn greet(&self, host: &Host, mut reply: Reply) {
        let protocol = if self.version == Version::Two { 2 } else { 3 };
        reply.map(6);
        for (name, text) in [("server", host.name), ("version", host.version), ("mode", "standalone")] {
            reply.bulk(name);
            reply.bulk(text);
        }
        for (name, number) in [("proto", protocol), ("id", self.number)] {
            reply.bulk(name);
            reply.number(number);
        }
        reply.bulk("modules");
        reply.array(0);
    }

    /// What libraries send when they connect.
    fn client(&mut self, arguments: &[&str], mut reply: Reply) -> Result<(), Fault> {
        let words: Vec<_> = arguments.iter().map(|word| word.to_ascii_uppercase()).collect();
        match (words.first().map(String::as_str), arguments) {
            (Some("SETNAME"), [_, name]) => {
                self.name = (*name).into();
                reply.ok();
            }
            (Some("SETINFO"), [_, _, _]) => reply.ok(),
            (Some("GETNAME"), [_]) if self.name.is_empty() => reply.nil(),
            (Some("GETNAME"), [_]) => reply.bulk(&self.name),
            (Some("ID"), [_]) => reply.number(self.number),
            _ => return Err("ERR of CLIENT there are SETNAME, GETNAME, SETINFO and ID".into()),
        }
        Ok(())
    }
}

#[cfg(test)]
mod tests {
    use super::*;

    fn host(password: Option<&str>) -> Host {
        Host { name: "it", version: "1.2.3", password: password.map(String::from) }
    }

    /// What is replied to a line, with spaces for its ends.
    fn asks(guest: &mut Guest, host: &Host, line: &str) -> String {
        let words: Vec<_> = line.split(' ').collect();
        let mut to = Vec::new();
        match guest.answer(host, (words[0], &words[1..]), &mut to) {
            Ok(Answered::No) => "no".into(),
            Ok(_) => String::from_utf8(to).unwrap().replace("\r\n", " ").trim_end().into(),
            Err(why) => why,
        }
    }

    #[test]
    fn what_each_server_answers_is_answered() {
        let (host, mut guest) = (host(None), Guest::new(7, &host(None)));
        let told = [
            ("PING", "+PONG"),
            ("PING hello", "$5 hello"),
            ("PING a b", WRONG_COUNT),
            ("COMMAND DOCS", "*0"),
            ("SELECT 0", "+OK"),
            ("SELECT 1", "ERR DB index is out of range"),
            ("SELECT", WRONG_COUNT),
            ("AUTH x", "ERR no password is set"),
            ("CLIENT GETNAME", "$-1"),
            ("CLIENT SETNAME me", "+OK"),
            ("CLIENT getname", "$2 me"),
            ("CLIENT SETINFO LIB-NAME x", "+OK"),
            ("CLIENT ID", ":7"),
            ("CLIENT KILL", "ERR of CLIENT there are SETNAME, GETNAME, SETINFO and ID"),
            ("QUIT now", WRONG_COUNT),
            ("QUIT", "+OK"),
            ("GET a", "no"),
        ];
        told.iter().for_each(|(line, wanted)| assert_eq!(asks(&mut guest, &host, line), *wanted, "{line}"));
        let left = guest.answer(&host, ("QUIT", &[]), &mut Vec::new());
        assert_eq!(left, Ok(Answered::ForTheLastTime));
    }

    #[test]
    fn a_client_chooses_its_version() {
        let (host, mut guest) = (host(None), Guest::new(7, &host(None)));
        let greeting = "$6 server $2 it $7 version $5 1.2.3 $4 mode $10 standalone $5 proto :2 $2 id :7 $7 modules *0";
        assert_eq!(asks(&mut guest, &host, "HELLO"), format!("*12 {greeting}"));
        assert_eq!(asks(&mut guest, &host, "HELLO 4"), "NOPROTO unsupported protocol version");
        let third = greeting.replace(":2", ":3");
        assert_eq!(asks(&mut guest, &host, "HELLO 3 SETNAME me"), format!("%6 {third}"));
        assert_eq!(asks(&mut guest, &host, "CLIENT GETNAME"), "$2 me");
        assert_eq!(asks(&mut guest, &host, "HELLO 2 SETNAME"), "ERR Syntax error in HELLO");
        // It stays what was chosen last.
        assert_eq!(asks(&mut guest, &host, "HELLO"), format!("%6 {third}"));
    }

    #[test]
    fn without_the_password_nothing_is_answered() {
        let host = host(Some("open sesame"));
        let mut guest = Guest::new(7, &host);
        for line in ["PING", "GET a", "CLIENT ID", "HELLO 3"] {
            assert_eq!(asks(&mut guest, &host, line), NO_PASSWORD);
        }
        for words in [&["open"][..], &["other", "open sesame"], &["open sesamE"], &["open sesame!"], &[""]] {
            let refused = guest.answer(&host, ("AUTH", words), &mut Vec::new());
            assert_eq!(refused, Err(WRONG_PASSWORD.into()), "{words:?}");
        }
        assert_eq!(asks(&mut guest, &host, "PING"), NO_PASSWORD);
        assert_eq!(
            guest.answer(&host, ("HELLO", &["2", "AUTH", "default", "open sesame"]), &mut Vec::new()),
            Ok(Answered::Here)
        );
        assert_eq!(asks(&mut guest, &host, "PING"), "+PONG");
        // Who says a wrong one afterwards has none.
        assert_eq!(asks(&mut guest, &host, "AUTH wrong"), WRONG_PASSWORD);
        assert_eq!(asks(&mut guest, &host, "GET a"), NO_PASSWORD);
        assert_eq!(guest.answer(&host, ("AUTH", &["open sesame"]), &mut Vec::new()), Ok(Answered::Here));
        assert_eq!(asks(&mut guest, &host, "GET a"), "no");
    }
}
