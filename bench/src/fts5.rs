//! SQLite's FTS5, through its C interface: a database in memory with a text for each bar.
use crate::calls::Call;
use crate::words::Bars;
use std::ffi::{c_char, c_int, c_void, CStr, CString};
use std::ptr::{null, null_mut};

#[link(name = "sqlite3")]
extern "C" {
    fn sqlite3_libversion() -> *const c_char;
    fn sqlite3_open(name: *const c_char, database: *mut *mut c_void) -> c_int;
    fn sqlite3_close(database: *mut c_void) -> c_int;
    fn sqlite3_exec(
        database: *mut c_void,
        sql: *const c_char,
        row: *const c_void,
        argument: *mut c_void,
        error: *mut *mut c_char,
    ) -> c_int;
    fn sqlite3_prepare_v2(
        database: *mut c_void,
        sql: *const c_char,
        n: c_int,
        statement: *mut *mut c_void,
        tail: *mut *const c_char,
    ) -> c_int;
    fn sqlite3_finalize(statement: *mut c_void) -> c_int;
    fn sqlite3_bind_int64(statement: *mut c_void, place: c_int, value: i64) -> c_int;
    fn sqlite3_bind_text(statement: *mut c_void, place: c_int, text: *const c_char, n: c_int, kept: *const c_void) -> c_int;
    fn sqlite3_step(statement: *mut c_void) -> c_int;
    fn sqlite3_reset(statement: *mut c_void) -> c_int;
    fn sqlite3_column_int64(statement: *mut c_void, place: c_int) -> i64;
}

const OK: c_int = 0;
const ROW: c_int = 100;
const DONE: c_int = 101;

pub fn version() -> String {
    unsafe { CStr::from_ptr(sqlite3_libversion()) }.to_string_lossy().into_owned()
}

/// A call as FTS5's question, where it has one: a phrase, or NEAR, which knows no order and counts the words between first and last.
pub fn question(call: &Call) -> Option<CString> {
    let text = match call {
        Call::Phrase(names) => format!("\"{}\"", names.strs.join(" ")),
        Call::Near(names, window, false) => format!("NEAR({}, {})", names.strs.join(" "), window - 1),
        Call::NearMatch(a, b, window) => format!("NEAR({a} {b}, {})", window - 1),
        _ => return None,
    };
    Some(CString::new(text).expect("no zero"))
}

/// The database, and its statement that asks.
pub struct Fts5 {
    database: *mut c_void,
    asking: *mut c_void,
}

impl Fts5 {
    /// The bars as texts, by their ids, in one index that is then merged into one piece. None where SQLite comes without FTS5.
    pub fn new(bars: &Bars) -> Option<Fts5> {
        let mut all = Fts5 { database: null_mut(), asking: null_mut() };
        assert_eq!(unsafe { sqlite3_open(c":memory:".as_ptr(), &mut all.database) }, OK);
        if !all.run(c"CREATE VIRTUAL TABLE bars USING fts5(text, content='', detail=full)") {
            return None;
        }
        assert!(all.run(c"BEGIN"));
        let insert = all.statement(c"INSERT INTO bars(rowid, text) VALUES (?, ?)");
        for (place, id) in bars.ids.iter().enumerate() {
            let text = bars.text(place);
            unsafe {
                assert_eq!(sqlite3_bind_int64(insert, 1, *id as i64), OK);
                assert_eq!(sqlite3_bind_text(insert, 2, text.as_ptr().cast(), text.len() as c_int, null()), OK);
                assert_eq!((sqlite3_step(insert), sqlite3_reset(insert)), (DONE, OK));
            }
        }
        unsafe { sqlite3_finalize(insert) };
        assert!(all.run(c"COMMIT") && all.run(c"INSERT INTO bars(bars) VALUES ('optimize')"));
        all.asking = all.statement(c"SELECT rowid FROM bars WHERE bars MATCH ?");
        Some(all)
    }

    fn run(&self, sql: &CStr) -> bool {
        unsafe { sqlite3_exec(self.database, sql.as_ptr(), null(), null_mut(), null_mut()) == OK }
    }

    fn statement(&self, sql: &CStr) -> *mut c_void {
        let mut statement = null_mut();
        assert_eq!(unsafe { sqlite3_prepare_v2(self.database, sql.as_ptr(), -1, &mut statement, null_mut()) }, OK);
        statement
    }

    /// The bars that a question finds, in the order in which they come.
    pub fn ask(&self, question: &CStr, ids: &mut Vec<u32>) {
        ids.clear();
        unsafe {
            sqlite3_bind_text(self.asking, 1, question.as_ptr(), question.count_bytes() as c_int, null());
            loop {
                match sqlite3_step(self.asking) {
                    ROW => ids.push(sqlite3_column_int64(self.asking, 0) as u32),
                    done => break assert_eq!(done, DONE, "{question:?}"),
                }
            }
            assert_eq!(sqlite3_reset(self.asking), OK);
        }
    }
}

impl Drop for Fts5 {
    fn drop(&mut self) {
        unsafe {
            sqlite3_finalize(self.asking);
            sqlite3_close(self.database);
        }
    }
}
