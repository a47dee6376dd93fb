//! The few functions of SQLite's C library that are used, and the only unsafe code.

use std::ffi::{CStr, CString, c_char, c_int, c_void};
use std::ptr;

const OK: c_int = 0;
const ROW: c_int = 100;
const DONE: c_int = 101;
const OPEN_READWRITE: c_int = 2;
const OPEN_CREATE: c_int = 4;
/// The connection is used by one thread only.
const OPEN_NOMUTEX: c_int = 0x8000;
const PREPARE_PERSISTENT: u32 = 1;

#[link(name = "sqlite3")]
unsafe extern "C" {
    fn sqlite3_libversion() -> *const c_char;
    fn sqlite3_open_v2(
        name: *const c_char,
        database: *mut *mut c_void,
        flags: c_int,
        vfs: *const c_char,
    ) -> c_int;
    fn sqlite3_close_v2(database: *mut c_void) -> c_int;
    fn sqlite3_errmsg(database: *mut c_void) -> *const c_char;
    fn sqlite3_exec(
        database: *mut c_void,
        sql: *const c_char,
        callback: *const c_void,
        argument: *mut c_void,
        message: *mut *mut c_char,
    ) -> c_int;
    fn sqlite3_prepare_v3(
        database: *mut c_void,
        sql: *const c_char,
        length: c_int,
        flags: u32,
        statement: *mut *mut c_void,
        tail: *mut *const c_char,
    ) -> c_int;
    fn sqlite3_bind_int64(statement: *mut c_void, place: c_int, value: i64) -> c_int;
    fn sqlite3_step(statement: *mut c_void) -> c_int;
    fn sqlite3_reset(statement: *mut c_void) -> c_int;
    fn sqlite3_column_int64(statement: *mut c_void, column: c_int) -> i64;
    fn sqlite3_finalize(statement: *mut c_void) -> c_int;
}

pub fn version() -> String {
    // SAFETY: the library returns a constant string that ends with 0.
    let text = unsafe { CStr::from_ptr(sqlite3_libversion()) };
    text.to_string_lossy().into_owned()
}

pub struct Database {
    handle: *mut c_void,
}

impl Database {
    /// Opens a database file, or one in memory where the name is `:memory:`.
    pub fn open(name: &str) -> Result<Database, String> {
        let name = CString::new(name).map_err(|e| e.to_string())?;
        let mut handle = ptr::null_mut();
        // SAFETY: the name ends with 0, and `handle` is where the library writes.
        let code = unsafe {
            sqlite3_open_v2(
                name.as_ptr(),
                &mut handle,
                OPEN_READWRITE | OPEN_CREATE | OPEN_NOMUTEX,
                ptr::null(),
            )
        };
        let database = Database { handle };
        if code == OK {
            Ok(database)
        } else {
            Err(database.message())
        }
    }

    pub fn execute(&self, sql: &str) -> Result<(), String> {
        let sql = CString::new(sql).map_err(|e| e.to_string())?;
        // SAFETY: the handle is open and the text ends with 0; no callback is given.
        let code = unsafe {
            sqlite3_exec(
                self.handle,
                sql.as_ptr(),
                ptr::null(),
                ptr::null_mut(),
                ptr::null_mut(),
            )
        };
        if code == OK {
            Ok(())
        } else {
            Err(self.message())
        }
    }

    pub fn prepare(&self, sql: &str) -> Result<Statement, String> {
        let text = CString::new(sql).map_err(|e| e.to_string())?;
        let mut handle = ptr::null_mut();
        // SAFETY: the handle is open, the text ends with 0, `handle` is where the library writes.
        let code = unsafe {
            sqlite3_prepare_v3(
                self.handle,
                text.as_ptr(),
                -1,
                PREPARE_PERSISTENT,
                &mut handle,
                ptr::null_mut(),
            )
        };
        if code == OK {
            Ok(Statement { handle })
        } else {
            Err(format!("{}: {sql}", self.message()))
        }
    }

    fn message(&self) -> String {
        // SAFETY: the library returns a string that ends with 0 and stays until the next call.
        let text = unsafe { CStr::from_ptr(sqlite3_errmsg(self.handle)) };
        text.to_string_lossy().into_owned()
    }
}

impl Drop for Database {
    fn drop(&mut self) {
        // SAFETY: the handle is closed once; statements that remain keep it until they end.
        unsafe {
            sqlite3_close_v2(self.handle);
        }
    }
}

/// A prepared statement. All its parameters and columns are whole numbers.
pub struct Statement {
    handle: *mut c_void,
}

impl Statement {
    /// Runs a statement that gives no row.
    pub fn run(&self, parameters: &[i64]) {
        self.each(parameters, |_: [i64; 0]| {});
    }

    /// The columns of the first row, 0 where they are NULL; nothing without a row.
    pub fn first<const N: usize>(&self, parameters: &[i64]) -> Option<[i64; N]> {
        self.bind(parameters);
        let found = self.step().then(|| self.columns());
        self.reset();
        found
    }

    /// Runs a statement and hands over each row.
    pub fn each<const N: usize>(&self, parameters: &[i64], mut row: impl FnMut([i64; N])) {
        self.bind(parameters);
        while self.step() {
            row(self.columns());
        }
        self.reset();
    }

    fn bind(&self, parameters: &[i64]) {
        for (place, value) in parameters.iter().enumerate() {
            // SAFETY: the statement is prepared and not running.
            let code = unsafe { sqlite3_bind_int64(self.handle, place as c_int + 1, *value) };
            assert_eq!(code, OK, "no parameter {}", place + 1);
        }
    }

    /// Whether there is a further row.
    fn step(&self) -> bool {
        // SAFETY: the statement is prepared.
        match unsafe { sqlite3_step(self.handle) } {
            ROW => true,
            DONE => false,
            code => panic!("SQLite answers {code}"),
        }
    }

    fn columns<const N: usize>(&self) -> [i64; N] {
        // SAFETY: the statement stands at a row; a column past the last reads as NULL, which is 0.
        std::array::from_fn(|column| unsafe { sqlite3_column_int64(self.handle, column as c_int) })
    }

    fn reset(&self) {
        // SAFETY: the statement is prepared.
        unsafe {
            sqlite3_reset(self.handle);
        }
    }
}

impl Drop for Statement {
    fn drop(&mut self) {
        // SAFETY: the statement is ended once.
        unsafe {
            sqlite3_finalize(self.handle);
        }
    }
}
