//! The base: the table `votes(article, user, weight)` of a SQLite database, through SQLite's C functions.
use nr::Row;
use std::ffi::{c_char, c_int, c_void, CStr, CString};
use std::{ptr::null, ptr::null_mut, thread, time::Duration};

type Handle = *mut c_void;

#[link(name = "sqlite3")]
extern "C" {
    fn sqlite3_open_v2(path: *const c_char, to: *mut Handle, flags: c_int, system: *const c_char) -> c_int;
    fn sqlite3_busy_timeout(base: Handle, millis: c_int) -> c_int;
    fn sqlite3_close_v2(base: Handle) -> c_int;
    fn sqlite3_errmsg(base: Handle) -> *const c_char;
    fn sqlite3_prepare_v2(base: Handle, sql: *const c_char, length: c_int, to: *mut Handle, rest: Handle) -> c_int;
    fn sqlite3_bind_text(query: Handle, place: c_int, text: *const u8, length: c_int, free: isize) -> c_int;
    fn sqlite3_bind_int64(query: Handle, place: c_int, number: i64) -> c_int;
    fn sqlite3_step(query: Handle) -> c_int;
    fn sqlite3_column_int64(query: Handle, column: c_int) -> i64;
    fn sqlite3_reset(query: Handle) -> c_int;
    fn sqlite3_finalize(query: Handle) -> c_int;
}

const FOUND_ROW: c_int = 100;
const READ_WRITE_BY_ONE_THREAD: c_int = 0x2 | 0x8000;
const COPY_TEXT: isize = -1;

/// Each is a transaction of its own. Those that write give the row that they wrote.
pub enum Query {
    Rows,
    Add,
    Remove,
}

const QUERIES: [&CStr; 3] = [
    c"SELECT user, weight FROM votes WHERE article = ? ORDER BY user, weight",
    c"INSERT INTO votes VALUES (?, ?, ?) RETURNING user, weight",
    c"DELETE FROM votes WHERE rowid = (SELECT rowid FROM votes WHERE (article, user, weight) = (?1, ?2, ?3) LIMIT 1)
        RETURNING user, weight",
];

pub struct Base {
    at: Handle,
    queries: [Handle; QUERIES.len()],
    /// In milliseconds, before each query.
    delay: u64,
}

// SAFETY: another thread may have it next, and calls take it by `&mut`, so that two threads never use it at a time.
unsafe impl Send for Base {}

impl Base {
    /// Where another program has the base locked, each query waits up to `busy` milliseconds.
    pub fn open(path: &str, busy: u64, delay: u64) -> Result<Base, String> {
        let path = CString::new(path).map_err(|fault| fault.to_string())?;
        let mut base = Base { at: null_mut(), queries: [null_mut(); QUERIES.len()], delay };
        // SAFETY: the path ends with a zero, and there is room for a handle, which is one also where this fails.
        let opened = unsafe { sqlite3_open_v2(path.as_ptr(), &mut base.at, READ_WRITE_BY_ONE_THREAD, null()) };
        base.done(opened)?;
        // SAFETY: the base is open.
        unsafe { sqlite3_busy_timeout(base.at, busy.min(c_int::MAX as u64) as c_int) };
        for (sql, place) in QUERIES.iter().zip(0..) {
            // SAFETY: the base is open, the text ends with a zero, and there is room for a handle.
            let made = unsafe { sqlite3_prepare_v2(base.at, sql.as_ptr(), -1, &mut base.queries[place], null_mut()) };
            base.done(made)?;
        }
        Ok(base)
    }

    /// The rows of a query for an article, and for the numbers of a row that is written.
    pub fn run(&mut self, query: Query, article: &str, numbers: &[u64]) -> Result<Vec<Row>, String> {
        thread::sleep(Duration::from_millis(self.delay));
        let (query, mut rows) = (self.queries[query as usize], Vec::new());
        // SAFETY: the query was prepared and is at its beginning, texts are copied, and what gives rows gives two columns.
        let end = unsafe {
            // Where there is no memory for the copy, the query would look for NULL.
            let bound = sqlite3_bind_text(query, 1, article.as_ptr(), article.len() as c_int, COPY_TEXT);
            self.done(bound)?;
            for (place, number) in (2..).zip(numbers) {
                sqlite3_bind_int64(query, place, *number as i64);
            }
            while sqlite3_step(query) == FOUND_ROW {
                rows.push(Row { a: sqlite3_column_int64(query, 0) as u64, b: sqlite3_column_int64(query, 1) as u64 });
            }
            // Tells again how the last step went.
            sqlite3_reset(query)
        };
        self.done(end).map(|()| rows)
    }

    fn done(&self, code: c_int) -> Result<(), String> {
        // SAFETY: the text is there until the next call for this base.
        let fault = || unsafe { CStr::from_ptr(sqlite3_errmsg(self.at)) }.to_string_lossy().into_owned();
        (code == 0).then_some(()).ok_or_else(fault)
    }
}

impl Drop for Base {
    fn drop(&mut self) {
        // SAFETY: each query was prepared, or is null; they and the base are not used again.
        self.queries.iter().for_each(|query| _ = unsafe { sqlite3_finalize(*query) });
        // SAFETY: as above.
        unsafe { sqlite3_close_v2(self.at) };
    }
}
