//! A connection to PostgreSQL, through libpq's C functions.
use std::ffi::{c_char, c_int, c_ulong, c_void, CStr, CString};
use std::ptr::{null, null_mut};
use std::{fmt, slice, time::Duration, time::Instant};

type Handle = *mut c_void;
type Text = *const c_char;

#[link(name = "pq")]
extern "C" {
    fn PQconnectStart(address: Text) -> Handle;
    fn PQconnectPoll(connection: Handle) -> c_int;
    fn PQsocket(connection: Handle) -> c_int;
    fn PQsetErrorVerbosity(connection: Handle, verbosity: c_int) -> c_int;
    fn PQbackendPID(connection: Handle) -> c_int;
    fn PQfinish(connection: Handle);
    fn PQerrorMessage(connection: Handle) -> Text;
    fn PQsendQuery(connection: Handle, sql: Text) -> c_int;
    fn PQsendQueryParams(
        connection: Handle,
        sql: Text,
        count: c_int,
        types: *const u32,
        values: *const Text,
        lengths: *const c_int,
        formats: *const c_int,
        format: c_int,
    ) -> c_int;
    fn PQsendQueryPrepared(
        connection: Handle,
        name: Text,
        count: c_int,
        values: *const Text,
        lengths: *const c_int,
        formats: *const c_int,
        format: c_int,
    ) -> c_int;
    fn PQconsumeInput(connection: Handle) -> c_int;
    fn PQisBusy(connection: Handle) -> c_int;
    fn PQgetResult(connection: Handle) -> Handle;
    fn PQresultStatus(result: Handle) -> c_int;
    fn PQresultErrorField(result: Handle, field: c_int) -> Text;
    fn PQntuples(result: Handle) -> c_int;
    fn PQcmdTuples(result: Handle) -> Text;
    fn PQnfields(result: Handle) -> c_int;
    fn PQgetvalue(result: Handle, row: c_int, column: c_int) -> Text;
    fn PQgetisnull(result: Handle, row: c_int, column: c_int) -> c_int;
    fn PQclear(result: Handle);
    fn PQgetCopyData(connection: Handle, to: *mut *mut u8, at_once: c_int) -> c_int;
    fn PQputCopyData(connection: Handle, bytes: *const u8, length: c_int) -> c_int;
    fn PQflush(connection: Handle) -> c_int;
    fn PQfreemem(bytes: *mut u8);
}

extern "C" {
    fn poll(sockets: *mut Socket, count: c_ulong, millis: c_int) -> c_int;
}

/// What the system waits for at a socket, and what came.
#[repr(C)]
struct Socket {
    number: c_int,
    wanted: i16,
    came: i16,
}

const READ: i16 = 1;
const WRITE: i16 = 4;
/// In milliseconds, for each step of coming to PostgreSQL.
const LONGEST_STEP: c_int = 10_000;

const WANTS_TO_READ: c_int = 1;
const WANTS_TO_WRITE: c_int = 2;
const CONNECTED: c_int = 3;
const WITH_CODE: c_int = 2;
const IN_SHORT: c_int = 1;
const COMMAND_DONE: c_int = 1;
const ROWS: c_int = 2;
const COPY_BOTH_WAYS: c_int = 8;
const END_OF_COPY: c_int = -1;
const FIELD_OF_STATE: c_int = b'C' as c_int;

/// The rows of a statement, their columns as texts.
pub type Table = Vec<Vec<String>>;
/// The same, where NULL is told from an empty text.
pub type Cells = Vec<Vec<Option<String>>>;

/// What PostgreSQL or the connection to it says is wrong.
#[derive(Clone, Debug)]
pub struct Fault {
    /// PostgreSQL's code of five signs; empty where the connection is broken or can't be made.
    pub state: String,
    message: String,
}

/// Of a statement that took too long, and of one that has others than are brought.
const CANCELLED: &str = "57014";
pub const WRONG_PARAMETERS: &str = "08P01";

impl Fault {
    /// Whether the connection is of no use any more, and other ones of before may be so too.
    pub fn is_of_connection(&self) -> bool {
        let is_of_statement = [CANCELLED, WRONG_PARAMETERS].contains(&&*self.state);
        ["57", "08"].contains(&self.state.get(..2).unwrap_or("08")) && !is_of_statement
    }

    /// PostgreSQL's own begins with how severe it is.
    pub fn without_severity(&self) -> String {
        let fault = self.to_string();
        fault.split_once(":  ").map_or(fault.clone(), |(_, what)| what.into())
    }
}

impl From<String> for Fault {
    fn from(message: String) -> Fault {
        Fault { state: String::new(), message }
    }
}

impl fmt::Display for Fault {
    fn fmt(&self, f: &mut fmt::Formatter<'_>) -> fmt::Result {
        f.write_str(self.message.lines().next().unwrap_or("the connection is broken"))
    }
}

pub struct Connection {
    handle: Handle,
    /// How long an answer is waited for, where that has a limit.
    limit: Option<Duration>,
}

// SAFETY: another thread may have it next, and calls take it by `&mut`, so that two threads never use it at a time.
unsafe impl Send for Connection {}

impl Connection {
    pub fn open(address: &str) -> Result<Connection, Fault> {
        let address = text(address);
        // SAFETY: the address ends with a zero. What is given back is a connection also where this fails.
        let connection = Connection { handle: unsafe { PQconnectStart(address.as_ptr()) }, limit: None };
        // SAFETY: the connection is there. A refusal then has its code.
        unsafe { PQsetErrorVerbosity(connection.handle, WITH_CODE) };
        let mut step = WANTS_TO_WRITE;
        while let WANTS_TO_READ | WANTS_TO_WRITE = step {
            connection.wait_until_ready(if step == WANTS_TO_READ { READ } else { WRITE })?;
            // SAFETY: the connection is there.
            step = unsafe { PQconnectPoll(connection.handle) };
        }
        if step != CONNECTED {
            let Fault { message, .. } = connection.fault();
            return Err(Fault { state: state_in(&message), message });
        }
        // SAFETY: the connection is there.
        unsafe { PQsetErrorVerbosity(connection.handle, IN_SHORT) };
        Ok(connection)
    }

    /// From here on an answer that takes longer is a fault, after which the connection is of no use.
    pub fn limit(&mut self, limit: Duration) {
        self.limit = Some(limit);
    }

    fn wait_until_ready(&self, wanted: i16) -> Result<(), Fault> {
        let is_ready = self.is_ready(wanted, LONGEST_STEP);
        is_ready.then_some(()).ok_or_else(|| String::from("PostgreSQL doesn't answer").into())
    }

    /// Whether the socket is ready, or a signal has ended the wait, so that libpq sees for what it has to wait on.
    fn is_ready(&self, wanted: i16, millis: c_int) -> bool {
        // SAFETY: the connection is there.
        let mut socket = Socket { number: unsafe { PQsocket(self.handle) }, wanted, came: 0 };
        // SAFETY: there is one socket, or a number below 0, which the system passes over.
        let count = unsafe { poll(&mut socket, 1, if socket.number < 0 { 0 } else { millis }) };
        count != 0 || socket.number < 0
    }

    /// PostgreSQL's process at the other end.
    pub fn process(&self) -> i32 {
        // SAFETY: the connection is there.
        unsafe { PQbackendPID(self.handle) }
    }

    /// Sends one statement with texts for its parameters, and gives its table.
    pub fn run_with(&mut self, sql: &str, parameters: &[&str]) -> Result<Table, Fault> {
        let (sql, parameters) = (text(sql), parameters.iter().map(|it| text(it)).collect::<Vec<_>>());
        let values: Vec<_> = parameters.iter().map(|it| it.as_ptr()).collect();
        let count = values.len() as c_int;
        // SAFETY: the connection is there, each text ends with a zero, and there are as many as are told.
        let is_sent =
            unsafe { PQsendQueryParams(self.handle, sql.as_ptr(), count, null(), values.as_ptr(), null(), null(), 0) };
        if is_sent == 0 {
            return Err(self.fault());
        }
        let mut tables = self.answers()?;
        tables.pop().ok_or_else(|| self.fault())
    }

    /// Runs a statement that was prepared by this name, with texts for its parameters.
    pub fn run_prepared(&mut self, name: &str, parameters: &[&str]) -> Result<Cells, Fault> {
        self.send_prepared(name, parameters)?;
        let mut cells = Err(self.fault());
        while let Some(answer) = self.next_answer()? {
            cells = answer.cells(self);
        }
        cells
    }

    /// The same of one that writes: how many rows it has written.
    pub fn write_prepared(&mut self, name: &str, parameters: &[&str]) -> Result<u64, Fault> {
        self.send_prepared(name, parameters)?;
        let mut written = Err(self.fault());
        while let Some(answer) = self.next_answer()? {
            written = answer.cells(self).map(|_| answer.written());
        }
        written
    }

    fn send_prepared(&mut self, name: &str, parameters: &[&str]) -> Result<(), Fault> {
        let (name, parameters) = (text(name), parameters.iter().map(|it| text(it)).collect::<Vec<_>>());
        let values: Vec<_> = parameters.iter().map(|it| it.as_ptr()).collect();
        let count = values.len() as c_int;
        // SAFETY: the connection is there, each text ends with a zero, and there are as many as are told.
        let is_sent =
            unsafe { PQsendQueryPrepared(self.handle, name.as_ptr(), count, values.as_ptr(), null(), null(), 0) };
        (is_sent == 1).then_some(()).ok_or_else(|| self.fault())
    }

    /// Sends one or more statements at once, and gives a table of each. One that begins a copy is the last.
    pub fn run(&mut self, sql: &str) -> Result<Vec<Table>, Fault> {
        let sql = text(sql);
        // SAFETY: the connection is there, and the text ends with a zero.
        if unsafe { PQsendQuery(self.handle, sql.as_ptr()) } == 0 {
            return Err(self.fault());
        }
        self.answers()
    }

    fn answers(&mut self) -> Result<Vec<Table>, Fault> {
        let mut tables = Vec::new();
        while let Some(answer) = self.next_answer()? {
            tables.push(answer.table(self));
            if answer.status() == COPY_BOTH_WAYS {
                break;
            }
        }
        tables.into_iter().collect()
    }

    fn next_answer(&mut self) -> Result<Option<Answer>, Fault> {
        if let Some(limit) = self.limit {
            self.await_answer(limit)?;
        }
        // SAFETY: the connection is there.
        let answer = unsafe { PQgetResult(self.handle) };
        Ok((!answer.is_null()).then_some(Answer(answer)))
    }

    fn await_answer(&mut self, limit: Duration) -> Result<(), Fault> {
        let until = Instant::now() + limit;
        // SAFETY: the connection is there.
        while unsafe { PQisBusy(self.handle) } == 1 {
            let left = until.saturating_duration_since(Instant::now());
            if left.is_zero() {
                return Err(String::from("PostgreSQL doesn't answer in time").into());
            }
            self.take_in(left)?;
        }
        Ok(())
    }

    /// The next message of a copy, which is waited for.
    pub fn message(&mut self) -> Result<Vec<u8>, Fault> {
        let message = self.copied(false)?;
        message.ok_or_else(|| self.fault())
    }

    /// The next message of a copy, or none where so long none comes.
    pub fn message_within(&mut self, wait: Duration) -> Result<Option<Vec<u8>>, Fault> {
        let until = Instant::now() + wait;
        loop {
            let message = self.copied(true)?;
            let left = until.saturating_duration_since(Instant::now());
            if message.is_some() || left.is_zero() {
                return Ok(message);
            }
            self.take_in(left)?;
        }
    }

    /// Waits so long for more to come, and takes in what is there.
    fn take_in(&mut self, wait: Duration) -> Result<(), Fault> {
        self.is_ready(READ, wait.as_millis().clamp(1, 60_000) as c_int);
        // SAFETY: the connection is there.
        let is_good = unsafe { PQconsumeInput(self.handle) } == 1;
        is_good.then_some(()).ok_or_else(|| self.fault())
    }

    /// The next message of a copy, or none where there is none at once.
    fn copied(&mut self, at_once: bool) -> Result<Option<Vec<u8>>, Fault> {
        let mut bytes = null_mut();
        // SAFETY: the connection is there, and there is room for an address.
        let length = unsafe { PQgetCopyData(self.handle, &mut bytes, at_once.into()) };
        if length == 0 {
            return Ok(None);
        }
        if length == END_OF_COPY {
            return Err(self.end_of_copy());
        }
        let length = usize::try_from(length).map_err(|_| self.fault())?;
        // SAFETY: it has given so many bytes.
        let message = unsafe { slice::from_raw_parts(bytes, length) }.to_vec();
        // SAFETY: it gave the bytes, which are not used again.
        unsafe { PQfreemem(bytes) };
        Ok(Some(message))
    }

    /// What PostgreSQL says is wrong, where it has ended a copy since something was.
    fn end_of_copy(&mut self) -> Fault {
        let ended = || String::from("PostgreSQL has ended the stream").into();
        match self.next_answer() {
            Ok(answer) => answer.and_then(|answer| answer.table(self).err()).unwrap_or_else(ended),
            Err(fault) => fault,
        }
    }

    pub fn send(&mut self, message: &[u8]) -> Result<(), Fault> {
        // SAFETY: the connection is there, and so are as many bytes as are told.
        let is_sent = unsafe {
            PQputCopyData(self.handle, message.as_ptr(), message.len() as c_int) == 1 && PQflush(self.handle) >= 0
        };
        is_sent.then_some(()).ok_or_else(|| self.fault())
    }

    fn fault(&self) -> Fault {
        // SAFETY: the connection is there, and its text until its next call.
        unsafe { CStr::from_ptr(PQerrorMessage(self.handle)) }.to_string_lossy().into_owned().into()
    }
}

impl Drop for Connection {
    fn drop(&mut self) {
        // SAFETY: the connection is there, and is not used again.
        unsafe { PQfinish(self.handle) }
    }
}

/// What PostgreSQL answers to a statement.
struct Answer(Handle);

impl Answer {
    fn status(&self) -> c_int {
        // SAFETY: an answer that isn't there has a status too.
        unsafe { PQresultStatus(self.0) }
    }

    fn table(&self, connection: &Connection) -> Result<Table, Fault> {
        let cells = self.cells(connection)?;
        Ok(cells.into_iter().map(|row| row.into_iter().map(Option::unwrap_or_default).collect()).collect())
    }

    fn cells(&self, connection: &Connection) -> Result<Cells, Fault> {
        if !matches!(self.status(), COMMAND_DONE | ROWS | COPY_BOTH_WAYS) {
            // SAFETY: the answer is there or null, which has no fields.
            let state = unsafe { PQresultErrorField(self.0, FIELD_OF_STATE) };
            // SAFETY: the text is the answer's.
            let state = (!state.is_null()).then(|| unsafe { CStr::from_ptr(state) }.to_string_lossy().into_owned());
            return Err(Fault { state: state.unwrap_or_default(), ..connection.fault() });
        }
        // SAFETY: the answer is there.
        let (rows, columns) = unsafe { (PQntuples(self.0), PQnfields(self.0)) };
        Ok((0..rows).map(|row| (0..columns).map(|column| self.cell(row, column)).collect()).collect())
    }

    /// How many rows the statement has written, or given.
    fn written(&self) -> u64 {
        // SAFETY: the answer is there, and the text is its own.
        let digits = unsafe { CStr::from_ptr(PQcmdTuples(self.0)) };
        digits.to_str().ok().and_then(|digits| digits.parse().ok()).unwrap_or_default()
    }

    /// Of a row and a column that the answer has.
    fn cell(&self, row: c_int, column: c_int) -> Option<String> {
        // SAFETY: the answer has that row and that column.
        let is_null = unsafe { PQgetisnull(self.0, row, column) } == 1;
        // SAFETY: as above, and their text is the answer's.
        (!is_null).then(|| unsafe { CStr::from_ptr(PQgetvalue(self.0, row, column)) }.to_string_lossy().into_owned())
    }
}

impl Drop for Answer {
    fn drop(&mut self) {
        // SAFETY: the answer is there or null, and is not used again.
        unsafe { PQclear(self.0) }
    }
}

/// A text for C. PostgreSQL has none with a zero in it.
fn text(text: &str) -> CString {
    CString::new(text).unwrap_or_default()
}

/// A text as a literal of SQL, whatever `standard_conforming_strings` is.
pub fn quoted(text: &str) -> String {
    format!("E'{}'", text.replace('\\', "\\\\").replace('\'', "''"))
}

/// The code in a refusal such as `FATAL:  28000: role "edge" does not exist`; of many servers' refusals the last one's.
fn state_in(message: &str) -> String {
    let is_sign = |sign: char| sign.is_ascii_digit() || sign.is_ascii_uppercase();
    let has_digit = |part: &str| part.contains(|sign: char| sign.is_ascii_digit());
    let is_state = |part: &&str| part.len() == 5 && part.chars().all(is_sign) && has_digit(part);
    message.rsplit(": ").map(str::trim).find(is_state).unwrap_or_default().into()
}

#[cfg(test)]
mod tests {
    use super::*;

    #[test]
    fn a_refusal_has_its_code() {
        let of = |message: &str| state_in(message);
        assert_eq!(of("connection failed: FATAL:  28000: role \"edge\" does not exist"), "28000");
        assert_eq!(of("FATAL:  53300: too many: FATAL:  57P03: the database system is starting up"), "57P03");
        assert_eq!(of("FATAL:  3D000: no database: X1"), "3D000");
        assert_eq!([of("could not connect: Connection refused"), of("FATAL: WORDS: none")], ["", ""]);
    }

    #[test]
    fn a_statement_s_fault_leaves_the_connection() {
        let of = |state: &str| Fault { state: state.into(), message: "ERROR:  why\nDETAIL".into() };
        let is_of_connection = |state: &&str| of(state).is_of_connection();
        assert!(["", "08006", "57P01", "57P03"].iter().all(is_of_connection));
        assert!(!["57014", "08P01", "22P02", "42501"].iter().any(is_of_connection));
        assert_eq!(of("").without_severity(), "why");
    }

    #[test]
    fn a_text_is_quoted() {
        assert_eq!(quoted(r"it's a \"), r"E'it''s a \\'");
    }

    #[test]
    fn who_is_not_there_is_a_fault_of_the_connection() {
        let fault = Connection::open("host=/nowhere").err().unwrap();
        assert!(fault.is_of_connection() && fault.state.is_empty(), "{fault}");
    }
}
