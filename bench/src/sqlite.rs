//! SQLite's C library doing the same job: revisions, contents by sheet and revision, one working copy. WAL, its checkpoints taken outside the measured
//! time, or a database in memory.

use std::ffi::{c_char, c_int, c_void, CStr, CString};
use std::ptr;

extern "C" {
    fn sqlite3_libversion() -> *const c_char;
    fn sqlite3_open_v2(name: *const c_char, db: *mut *mut c_void, flags: c_int, vfs: *const c_char) -> c_int;
    fn sqlite3_exec(db: *mut c_void, sql: *const c_char, each: *const c_void, arg: *mut c_void, error: *mut *mut c_char) -> c_int;
    fn sqlite3_prepare_v2(db: *mut c_void, sql: *const c_char, len: c_int, out: *mut *mut c_void, tail: *mut *const c_char) -> c_int;
    fn sqlite3_bind_int(s: *mut c_void, k: c_int, x: c_int) -> c_int;
    fn sqlite3_bind_blob(s: *mut c_void, k: c_int, bytes: *const c_void, len: c_int, free: *const c_void) -> c_int;
    fn sqlite3_step(s: *mut c_void) -> c_int;
    fn sqlite3_reset(s: *mut c_void) -> c_int;
    fn sqlite3_column_blob(s: *mut c_void, k: c_int) -> *const c_void;
    fn sqlite3_column_bytes(s: *mut c_void, k: c_int) -> c_int;
    fn sqlite3_finalize(s: *mut c_void) -> c_int;
    fn sqlite3_close(db: *mut c_void) -> c_int;
}

const ROW: c_int = 100;
const DONE: c_int = 101;
/// Read and write, create, no locks between threads.
const OPEN: c_int = 2 + 4 + 0x8000;

pub fn version() -> String {
    unsafe { CStr::from_ptr(sqlite3_libversion()) }.to_string_lossy().into_owned()
}

pub struct Db {
    db: *mut c_void,
    begin: *mut c_void,
    end: *mut c_void,
    revision: *mut c_void,
    content: *mut c_void,
    find: *mut c_void,
    update: *mut c_void,
    check: *mut c_void,
}

impl Db {
    /// A database of the commits, and a working copy of 32 sheets.
    pub fn open(name: &str, rows: &[(usize, u8, Vec<u8>)]) -> Db {
        let mut db = ptr::null_mut();
        let name = CString::new(name).expect("no zero in a name");
        assert_eq!(unsafe { sqlite3_open_v2(name.as_ptr(), &mut db, OPEN, ptr::null()) }, 0);
        exec(db, "pragma locking_mode=exclusive; pragma journal_mode=wal; pragma synchronous=off; pragma wal_autocheckpoint=0");
        exec(db, "create table revision(r integer primary key, seat integer, stamp integer)");
        exec(db, "create table content(sheet integer, revision integer, bytes blob, primary key(sheet, revision)) without rowid");
        exec(db, "create table work(sheet integer primary key, base integer, bytes blob)");
        let mut d = Db {
            db,
            begin: prepare(db, "begin"),
            end: prepare(db, "commit"),
            revision: prepare(db, "insert into revision values (?, 1, 7)"),
            content: prepare(db, "insert into content values (?, ?, ?)"),
            find: prepare(db, "select bytes from content where sheet=? and revision<=? order by revision desc limit 1"),
            update: prepare(
                db,
                "update work set base=?1, bytes=(select c.bytes from content c where c.sheet=work.sheet and c.revision<=?1 order by c.revision desc limit 1)",
            ),
            check: prepare(db, "pragma integrity_check"),
        };
        step(d.begin);
        let mut last = 0;
        for (r, sheet, bytes) in rows {
            if *r != last {
                d.insert_revision(*r as u32);
                last = *r;
            }
            d.insert_content(*r as u32, *sheet as u32, bytes);
        }
        exec(db, "insert into work select distinct sheet, 0, x'' from content");
        step(d.end);
        d.update(last as u32);
        exec(db, "analyze; pragma wal_checkpoint(truncate)");
        d
    }

    fn insert_revision(&mut self, r: u32) {
        unsafe { sqlite3_bind_int(self.revision, 1, r as c_int) };
        step(self.revision);
    }

    fn insert_content(&mut self, r: u32, sheet: u32, bytes: &[u8]) {
        unsafe {
            sqlite3_bind_int(self.content, 1, sheet as c_int);
            sqlite3_bind_int(self.content, 2, r as c_int);
            sqlite3_bind_blob(self.content, 3, bytes.as_ptr().cast(), bytes.len() as c_int, ptr::null());
        }
        step(self.content);
    }

    /// One transaction.
    pub fn commit(&mut self, r: u32, sheet: u32, bytes: &[u8]) {
        step(self.begin);
        self.insert_revision(r);
        self.insert_content(r, sheet, bytes);
        step(self.end);
    }

    /// Takes the commits after `last` out again.
    pub fn forget(&mut self, last: u32) {
        exec(self.db, &format!("begin; delete from content where revision>{last}; delete from revision where r>{last}; commit; pragma wal_checkpoint(truncate)"));
    }

    /// The length of the bytes, which go to `out`.
    pub fn read(&mut self, r: u32, sheet: u32, out: &mut [u8; 512]) -> usize {
        unsafe {
            sqlite3_bind_int(self.find, 1, sheet as c_int);
            sqlite3_bind_int(self.find, 2, r as c_int);
            assert_eq!(sqlite3_step(self.find), ROW);
            let len = sqlite3_column_bytes(self.find, 0) as usize;
            let bytes = sqlite3_column_blob(self.find, 0);
            ptr::copy_nonoverlapping(bytes.cast(), out.as_mut_ptr(), len.min(512));
            sqlite3_reset(self.find);
            len
        }
    }

    /// One transaction for all.
    pub fn reads(&mut self, wished: &[(u32, u32)], out: &mut [u8; 512]) {
        step(self.begin);
        for &(r, i) in wished {
            self.read(r, i, out);
            std::hint::black_box(&*out);
        }
        step(self.end);
    }

    /// All sheets of the working copy, by one statement.
    pub fn update(&mut self, r: u32) {
        unsafe { sqlite3_bind_int(self.update, 1, r as c_int) };
        step(self.update);
    }

    pub fn verify(&mut self) {
        unsafe {
            assert_eq!(sqlite3_step(self.check), ROW);
            let answer = std::slice::from_raw_parts(sqlite3_column_blob(self.check, 0).cast::<u8>(), 2);
            assert_eq!(answer, b"ok");
            sqlite3_reset(self.check);
        }
    }
}

impl Drop for Db {
    fn drop(&mut self) {
        unsafe {
            for s in [self.begin, self.end, self.revision, self.content, self.find, self.update, self.check] {
                sqlite3_finalize(s);
            }
            sqlite3_close(self.db);
        }
    }
}

fn exec(db: *mut c_void, sql: &str) {
    let text = CString::new(sql).expect("no zero in a statement");
    assert_eq!(unsafe { sqlite3_exec(db, text.as_ptr(), ptr::null(), ptr::null_mut(), ptr::null_mut()) }, 0, "{sql}");
}

fn prepare(db: *mut c_void, sql: &str) -> *mut c_void {
    let text = CString::new(sql).expect("no zero in a statement");
    let mut s = ptr::null_mut();
    assert_eq!(unsafe { sqlite3_prepare_v2(db, text.as_ptr(), -1, &mut s, ptr::null_mut()) }, 0, "{sql}");
    s
}

fn step(s: *mut c_void) {
    unsafe {
        assert_eq!(sqlite3_step(s), DONE);
        sqlite3_reset(s);
    }
}
