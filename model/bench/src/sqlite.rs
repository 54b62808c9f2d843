//! SQLite, in memory.

use crate::baseline::word;
use crate::library::functions;
use crate::peer::Peer;
use std::ffi::{c_char, c_int, c_void, CStr};
use std::ptr::null_mut;

type Handle = *mut c_void;

functions! {
    /// The functions of sqlite3.h that are used.
    Functions from "libsqlite3.so.0" {
        version: c"sqlite3_libversion" unsafe extern "C" fn() -> *const c_char,
        open_file: c"sqlite3_open" unsafe extern "C" fn(*const c_char, *mut Handle) -> c_int,
        close: c"sqlite3_close" unsafe extern "C" fn(Handle) -> c_int,
        prepare: c"sqlite3_prepare_v2"
            unsafe extern "C" fn(Handle, *const c_char, c_int, *mut Handle, *mut *const c_char) -> c_int,
        bind: c"sqlite3_bind_int64" unsafe extern "C" fn(Handle, c_int, i64) -> c_int,
        step: c"sqlite3_step" unsafe extern "C" fn(Handle) -> c_int,
        reset: c"sqlite3_reset" unsafe extern "C" fn(Handle) -> c_int,
        column: c"sqlite3_column_int64" unsafe extern "C" fn(Handle, c_int) -> i64,
        finalize: c"sqlite3_finalize" unsafe extern "C" fn(Handle) -> c_int,
    }
}

// Answers of sqlite3.h.
const ROW: c_int = 100;
const DONE: c_int = 101;

/// A database with one table, and its statements.
pub struct Sqlite {
    functions: Functions,
    database: Handle,
    begin: Handle,
    commit: Handle,
    put: Handle,
    remove: Handle,
    find: Handle,
}

impl Sqlite {
    /// An empty database; none where SQLite is not installed.
    pub fn open() -> Option<Sqlite> {
        let functions = Functions::open()?;
        let mut database = null_mut();
        // The handle goes to a local.
        assert_eq!(unsafe { (functions.open_file)(c":memory:".as_ptr(), &mut database) }, 0);
        let prepared = |text: &CStr| {
            let mut statement = null_mut();
            // The text ends in a zero byte, as a length of -1 says; the handle goes to a local.
            let answer =
                unsafe { (functions.prepare)(database, text.as_ptr(), -1, &mut statement, null_mut()) };
            assert_eq!(answer, 0, "{text:?}");
            statement
        };
        let table = prepared(c"CREATE TABLE prices (offer INTEGER PRIMARY KEY, price INTEGER NOT NULL)");
        // The statement is not used again.
        unsafe {
            assert_eq!((functions.step)(table), DONE);
            (functions.finalize)(table);
        }
        Some(Sqlite {
            functions,
            database,
            begin: prepared(c"BEGIN"),
            commit: prepared(c"COMMIT"),
            put: prepared(c"INSERT INTO prices VALUES (?1, ?2) ON CONFLICT DO UPDATE SET price = ?2"),
            remove: prepared(c"DELETE FROM prices WHERE offer = ?1"),
            find: prepared(c"SELECT price FROM prices WHERE offer = ?1"),
        })
    }

    /// The version that is installed.
    pub fn version() -> Option<String> {
        let functions = Functions::open()?;
        // The text is a constant of the library.
        let version = unsafe { CStr::from_ptr((functions.version)()) };
        Some(format!("SQLite {}", version.to_string_lossy()))
    }

    /// Runs a statement on numbers, and gives the first column of a row if there is one.
    fn run(&mut self, statement: Handle, numbers: &[u32]) -> Option<i64> {
        let Functions { bind, step, reset, column, .. } = self.functions;
        // The statement is one of the database's.
        unsafe {
            for (place, &number) in (1..).zip(numbers) {
                assert_eq!(bind(statement, place, number.into()), 0);
            }
            let answer = step(statement);
            assert!(answer == ROW || answer == DONE);
            let found = (answer == ROW).then(|| column(statement, 0));
            assert_eq!(reset(statement), 0);
            found
        }
    }
}

impl Peer for Sqlite {
    fn commit(&mut self, list: &[u64]) {
        self.run(self.begin, &[]);
        for &word in list {
            if word::is_put(word) {
                self.run(self.put, &[word::offer(word), word::price(word)]);
            } else {
                self.run(self.remove, &[word::offer(word)]);
            }
        }
        self.run(self.commit, &[]);
    }

    fn look_up(&mut self, offer: u32) -> Option<u32> {
        self.run(self.find, &[offer]).map(|price| price as u32)
    }
}

impl Drop for Sqlite {
    fn drop(&mut self) {
        // The handles are not used again.
        unsafe {
            for statement in [self.begin, self.commit, self.put, self.remove, self.find] {
                (self.functions.finalize)(statement);
            }
            (self.functions.close)(self.database);
        }
    }
}
