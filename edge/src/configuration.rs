//! What an operator writes: where the rows are, which views of them an edge holds, and where it is asked for them.
use crate::query::{Item, Query};
use crate::session::COMMANDS;
use edge_common::session::Limits;
use serde::Deserialize;
use std::net::{IpAddr, SocketAddr};
use std::path::{Path, PathBuf};
use std::{collections::HashSet, fs, str::FromStr, thread::available_parallelism, time::Duration};

#[derive(Debug, Deserialize)]
#[serde(deny_unknown_fields)]
pub struct Configuration {
    pub source: Source,
    #[serde(default)]
    pub cache: Room,
    #[serde(default)]
    pub listen: Listen,
    #[serde(rename = "view", default)]
    pub views: Vec<View>,
    #[serde(rename = "write", default)]
    pub writes: Vec<Write>,
}

#[derive(Debug, Deserialize)]
#[serde(deny_unknown_fields)]
pub struct Source {
    /// A connection string of libpq, as words.
    address: String,
    /// Its first line is the password.
    password_file: Option<PathBuf>,
    /// By which the database tells its changes.
    #[serde(default = "edge")]
    pub publication: String,
    /// By which missing keys are asked for.
    #[serde(default = "four")]
    pub connections: u8,
    /// Seconds that one statement and its client wait at most.
    #[serde(default = "five")]
    deadline: u32,
    /// Seconds after which it is looked again whether the database has what an edge needs.
    #[serde(default = "sixty")]
    recheck: u32,
    /// Seconds without word of the stream, after which PostgreSQL is asked for what is held.
    max_staleness: Option<u32>,
    /// By which clients write.
    #[serde(default = "four")]
    pub write_connections: u8,
    /// The slot stays when its connection breaks, so that the edge goes on with what it holds.
    #[serde(default)]
    pub lasting_slot: bool,
}

fn edge() -> String {
    "edge".into()
}

fn four() -> u8 {
    4
}

fn five() -> u32 {
    5
}

fn sixty() -> u32 {
    60
}

/// How much an edge holds, of all views.
#[derive(Debug, Deserialize)]
#[serde(deny_unknown_fields, default)]
pub struct Room {
    pub keys: u32,
    /// Of rows and values.
    pub limit_bytes: u64,
}

impl Default for Room {
    fn default() -> Room {
        Room { keys: 100_000, limit_bytes: 256 << 20 }
    }
}

/// Where clients come, and what they may. Times are in seconds.
#[derive(Debug, Deserialize)]
#[serde(deny_unknown_fields, default)]
pub struct Listen {
    pub address: IpAddr,
    /// 0 stands for a free one.
    pub port: u16,
    pub unix_socket: Option<PathBuf>,
    pub clients: u16,
    /// The threads that serve them, an event loop each.
    workers: Option<u8>,
    idle: u32,
    half_command: u32,
    /// How long a token is waited for.
    token_wait: u32,
    /// Its first line is the clients' password.
    password_file: Option<PathBuf>,
    /// Where /metrics and /healthz are answered.
    pub metrics: Option<SocketAddr>,
}

impl Default for Listen {
    fn default() -> Listen {
        Listen {
            address: [127, 0, 0, 1].into(),
            port: 6390,
            unix_socket: None,
            clients: 64,
            workers: None,
            idle: 300,
            half_command: 10,
            token_wait: 10,
            password_file: None,
            metrics: None,
        }
    }
}

impl Listen {
    pub fn limits(&self) -> Limits {
        let [idle, half] = [self.idle, self.half_command].map(|seconds| Duration::from_secs(seconds.into()));
        Limits { idle, half }
    }

    /// Several for each processor where nothing is said: beside other work the system lets those run first who ran least.
    pub fn workers(&self) -> u8 {
        let several = || 4 * available_parallelism().map_or(1, usize::from);
        self.workers.unwrap_or_else(|| several().try_into().unwrap_or(u8::MAX))
    }

    pub fn token_wait(&self) -> Duration {
        Duration::from_secs(self.token_wait.into())
    }

    pub fn password(&self) -> Result<Option<String>, String> {
        let password = self.password_file.as_deref().map(first_line).transpose()?;
        let is_empty = password.as_ref().is_some_and(String::is_empty);
        (!is_empty).then_some(password).ok_or("the clients' password is empty".into())
    }

    fn check(&self) -> Result<(), String> {
        let is_right = self.clients > 0 && self.workers != Some(0) && self.idle > 0 && self.half_command > 0;
        is_right.then_some(()).ok_or("clients, workers, idle and half_command are 1 or more each".into())
    }
}

/// The rows of a table by the texts of some of its columns, or what a query makes of them.
#[derive(Debug, Deserialize)]
#[serde(deny_unknown_fields)]
pub struct View {
    pub name: String,
    /// In place of a table, a key and columns, which it then gives.
    query: Option<String>,
    /// As SQL names it, with its schema where that isn't on the way by which names are found.
    #[serde(default)]
    pub table: String,
    #[serde(default)]
    pub key: Vec<String>,
    #[serde(default)]
    pub columns: Vec<String>,
    /// Of a query, with their names.
    #[serde(skip)]
    pub items: Vec<(String, Item)>,
    #[serde(default)]
    pub encoding: Encoding,
    /// Of its rows and values; no more than those of all views may have.
    pub limit_bytes: Option<u64>,
}

/// A statement that clients may have run, by a command of its name.
#[derive(Debug, Deserialize)]
#[serde(deny_unknown_fields)]
pub struct Write {
    pub name: String,
    /// One of SQL that writes, whose parameters $1, $2, .. are the command's words.
    pub statement: String,
}

impl Write {
    fn check(&self) -> Result<(), String> {
        if !is_name(&self.name) {
            return Err("its name is lowercase letters, digits and _".into());
        }
        let is_free = !COMMANDS.contains(&&*self.name.to_ascii_uppercase());
        is_free.then_some(()).ok_or("there is a command of its name".into())
    }
}

/// What a row is in a value.
#[derive(Clone, Copy, Debug, Default, Deserialize, PartialEq, Eq)]
#[serde(rename_all = "lowercase")]
pub enum Encoding {
    #[default]
    Objects,
    Arrays,
    /// Of the Redis protocol.
    Map,
    /// That of its one column.
    Text,
}

impl FromStr for Configuration {
    type Err = String;

    fn from_str(text: &str) -> Result<Configuration, String> {
        let toml: toml::Value = text.parse().map_err(|fault: toml::de::Error| fault.to_string())?;
        let read: Result<Configuration, _> = toml.try_into();
        read.map_err(|fault| with_line(&fault.to_string(), text))?.checked()
    }
}

/// With the line of a word that isn't known, which serde doesn't tell, where one alone begins with it.
fn with_line(why: &str, text: &str) -> String {
    let word = why.strip_prefix("unknown field `").and_then(|rest| rest.split('`').next()).unwrap_or_default();
    let is_of =
        |line: &str| line.trim_matches(|sign| " []".contains(sign)).split('=').next().map(str::trim) == Some(word);
    let lines: Vec<_> = (1..).zip(text.lines()).filter(|(_, line)| is_of(line)).map(|(number, _)| number).collect();
    match lines[..] {
        [line] if !word.is_empty() => format!("line {line}: {why}"),
        _ => why.into(),
    }
}

impl Configuration {
    fn checked(mut self) -> Result<Configuration, String> {
        let address = &self.source.address;
        if address.contains("://") {
            return Err("the address is words such as host=localhost, and no URI".into());
        }
        if address.split_whitespace().any(|word| word.starts_with("password")) {
            return Err("the password stands in a file, which password_file names".into());
        }
        if !is_name(&self.source.publication) {
            return Err("the publication's name is lowercase letters, digits and _".into());
        }
        let Source { connections, deadline, recheck, max_staleness, write_connections, .. } = &self.source;
        let is_one_or_more = *connections > 0 && *write_connections > 0 && *deadline > 0 && *recheck > 0;
        if !is_one_or_more || *max_staleness == Some(0) {
            return Err("connections, write_connections, deadline, recheck and max_staleness are 1 or more each".into());
        }
        if !(1..=2_000_000).contains(&self.cache.keys) {
            return Err("the keys are 1 to 2000000".into());
        }
        self.listen.check()?;
        if self.views.is_empty() {
            return Err("there is no [[view]]".into());
        }
        self.views.iter_mut().try_for_each(|it| it.check().map_err(|why| format!("the view {}: {why}", it.name)))?;
        self.writes.iter().try_for_each(|it| it.check().map_err(|why| format!("the write {}: {why}", it.name)))?;
        once("views", self.views.iter().map(|view| &view.name))?;
        once("writes", self.writes.iter().map(|write| &write.name))?;
        Ok(self)
    }

    /// The connection string, with the password.
    pub fn address(&self) -> Result<String, String> {
        let Source { address, password_file, .. } = &self.source;
        let Some(path) = password_file else { return Ok(address.clone()) };
        let password = first_line(path)?.replace('\\', "\\\\").replace('\'', "\\'");
        Ok(format!("{address} password='{password}'"))
    }
}

impl Source {
    pub fn deadline(&self) -> Duration {
        Duration::from_secs(self.deadline.into())
    }

    pub fn recheck(&self) -> Duration {
        Duration::from_secs(self.recheck.into())
    }

    pub fn max_staleness(&self) -> Option<Duration> {
        self.max_staleness.map(|seconds| Duration::from_secs(seconds.into()))
    }
}

fn first_line(path: &Path) -> Result<String, String> {
    let text = fs::read_to_string(path).map_err(|fault| format!("{}: {fault}", path.display()))?;
    Ok(text.lines().next().unwrap_or_default().into())
}

impl View {
    fn check(&mut self) -> Result<(), String> {
        if !is_name(&self.name) {
            return Err("its name is lowercase letters, digits and _".into());
        }
        if let Some(query) = &self.query {
            if !(self.table.is_empty() && self.key.is_empty() && self.columns.is_empty()) {
                return Err("a query gives the table, the key and the columns".into());
            }
            let Query { table, key, columns, items } = query.parse()?;
            (self.table, self.key, self.columns, self.items) = (table, key, columns, items);
            return self.check_encoding(self.items.len());
        }
        if self.table.is_empty() || self.key.is_empty() || self.columns.is_empty() {
            return Err("it has a query, or a table, and a key and columns of one or more each".into());
        }
        if let Some(both) = self.key.iter().find(|name| self.columns.contains(name)) {
            return Err(format!("`{both}` is in both key and columns: leave it out of columns"));
        }
        once("columns", self.key.iter().chain(&self.columns))?;
        self.check_encoding(self.columns.len())
    }

    fn check_encoding(&self, columns: usize) -> Result<(), String> {
        let is_right = self.encoding != Encoding::Text || columns == 1;
        is_right.then_some(()).ok_or("the encoding text is of one column".into())
    }

    pub fn is_query(&self) -> bool {
        self.query.is_some()
    }

    /// The columns of which a query has such items.
    pub fn columns_of(&self, is_such: impl Fn(Item) -> Option<usize>) -> Vec<String> {
        self.items.iter().filter_map(|(_, item)| is_such(*item)).map(|place| self.columns[place].clone()).collect()
    }
}

fn once<'a>(what: &str, mut names: impl Iterator<Item = &'a String>) -> Result<(), String> {
    let mut all = HashSet::new();
    names.find(|name| !all.insert(*name)).map_or(Ok(()), |name| Err(format!("there are two {what} {name}")))
}

fn is_name(text: &str) -> bool {
    let is_sign = |sign: u8| sign.is_ascii_lowercase() || sign.is_ascii_digit() || sign == b'_';
    !text.is_empty() && text.bytes().all(is_sign) && !text.as_bytes()[0].is_ascii_digit()
}

#[cfg(test)]
mod tests {
    use super::*;

    const VIEW: &str = "[[view]]\nname = 'votes'\ntable = 'votes'\nkey = ['article']\ncolumns = ['voter', 'weight']\n";

    const WRITE: &str = "[[write]]\nname = 'vote'\nstatement = 'INSERT INTO votes VALUES ($1)'\n";

    fn refused(text: &str) -> String {
        text.parse::<Configuration>().expect_err(text)
    }

    #[test]
    fn a_configuration_is_read() {
        let read: Configuration = format!("[source]\naddress = 'host=here'\n{VIEW}").parse().unwrap();
        assert_eq!((read.source.publication.as_str(), read.address().unwrap().as_str()), ("edge", "host=here"));
        assert_eq!((read.views[0].key.len(), read.views[0].columns.len()), (1, 2));
    }

    #[test]
    fn the_password_s_signs_are_no_words_of_the_address() {
        let path = std::env::temp_dir().join(format!("edge-password-{}", std::process::id()));
        fs::write(&path, "a \\'b\nnot this\n").unwrap();
        let source = format!("[source]\naddress = 'host=here'\npassword_file = '{}'\n{VIEW}", path.display());
        let address = source.parse::<Configuration>().unwrap().address();
        fs::remove_file(&path).unwrap();
        assert_eq!(address.unwrap(), r"host=here password='a \\\'b'");
    }

    #[test]
    fn a_word_that_is_not_known_is_refused() {
        for text in [
            format!("[source]\naddress = ''\ncolour = 1\n{VIEW}"),
            format!("[source]\naddress = ''\n{VIEW}colour = 1\n"),
            format!("[source]\naddress = ''\n{VIEW}[colour]\n"),
        ] {
            let line = text.lines().position(|line| line.contains("colour")).unwrap() + 1;
            assert!(
                refused(&text).starts_with(&format!("line {line}: unknown field `colour`, ")),
                "{}",
                refused(&text)
            );
        }
        let twice = refused(&format!("[source]\naddress = ''\nkeys = 1\n[cache]\nkeys = 2\n{VIEW}"));
        assert!(twice.starts_with("unknown field `keys`") && twice.ends_with(" for key `source`"), "{twice}");
        assert!(refused(VIEW).contains("missing field `source`"));
    }

    #[test]
    fn what_no_edge_can_have_is_refused() {
        let with = |source: &str, view: &str| refused(&format!("[source]\n{source}\n{view}"));
        let here = "address = 'host=here'";
        for (told, why) in [
            (with("address = 'postgres://here'", VIEW), "no URI"),
            (with("address = 'host=here password=x'", VIEW), "stands in a file"),
            (with("address = ''\npublication = 'A'", VIEW), "publication's name"),
            (with(&format!("{here}\nmax_staleness = 0"), VIEW), "1 or more each"),
            (with(here, &format!("[listen]\nclients = 0\n{VIEW}")), "1 or more each"),
            (with(here, &format!("[listen]\nworkers = 0\n{VIEW}")), "1 or more each"),
            (with(here, &format!("[cache]\nkeys = 0\n{VIEW}")), "1 to 2000000"),
            (with(here, ""), "no [[view]]"),
            (with(here, &format!("{VIEW}{VIEW}")), "two views votes"),
            (with(here, &VIEW.replace("'votes'", "'1'")), "its name is"),
            (with(here, &VIEW.replace("['article']", "[]")), "one or more"),
            (with(here, &format!("{VIEW}query = 'SELECT a FROM t GROUP BY a'\n")), "a query gives the table"),
            (with(here, "[[view]]\nname = 'a'\nquery = 'SELECT a FROM t, u'\n"), "the view a: the query isn't"),
            (with(here, &VIEW.replace("'weight'", "'article'")), "`article` is in both key and columns: leave it out"),
            (with(here, &VIEW.replace("'weight'", "'voter'")), "two columns voter"),
            (with(here, &format!("{VIEW}encoding = 'text'\n")), "of one column"),
            (with(here, &format!("{VIEW}encoding = 'xml'\n")), "unknown variant `xml`"),
            (with(&format!("{here}\nwrite_connections = 0"), VIEW), "1 or more each"),
            (with("address = 1", VIEW), "for key `source.address`"),
            (with("address", VIEW), "at line 2"),
            (with(here, &format!("{VIEW}{}", WRITE.replace("vote", "Vote"))), "the write Vote: its name is"),
            (with(here, &format!("{VIEW}{}", WRITE.replace("vote", "mget"))), "there is a command"),
            (with(here, &format!("{VIEW}{WRITE}{WRITE}")), "two writes vote"),
        ] {
            assert!(told.contains(why), "{told}");
        }
    }
}
