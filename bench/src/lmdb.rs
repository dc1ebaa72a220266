//! LMDB in the run, over the shim lmdb.c. A value is the whole record, so that it hands out what SEEK hands out.
use crate::engine::Engine;
use crate::names::{Name, Record, K, WPR};
use std::ffi::{c_char, c_int, c_void, CString};

extern "C" {
    fn lmdb_new(path: *const c_char) -> *mut c_void;
    fn lmdb_free(m: *mut c_void);
    fn lmdb_commit(m: *mut c_void) -> c_int;
    fn lmdb_begin(m: *mut c_void, reads_only: c_int) -> c_int;
    fn lmdb_put(
        m: *mut c_void,
        key: *const u8,
        key_bytes: usize,
        value: *const u32,
        value_bytes: usize,
        append: c_int,
    ) -> c_int;
    fn lmdb_get(
        m: *mut c_void,
        key: *const u8,
        key_bytes: usize,
        value: *mut u32,
        value_bytes: usize,
    ) -> c_int;
    fn lmdb_delete(m: *mut c_void, key: *const u8, key_bytes: usize) -> c_int;
    fn lmdb_walk(m: *mut c_void) -> c_int;
    fn lmdb_next(m: *mut c_void, value: *mut u32, value_bytes: usize) -> c_int;
}

pub struct Lmdb {
    state: *mut c_void,
    path: String,
}

impl Lmdb {
    /// A new database in a file of its own, in memory where the system has a place for that.
    pub fn new() -> Self {
        let folder = if std::path::Path::new("/dev/shm").is_dir() {
            "/dev/shm".into()
        } else {
            std::env::temp_dir()
        };
        let path = format!("{}/sheet-run-{}", folder.display(), std::process::id());
        let c_path = CString::new(path.clone()).expect("no NUL in a path");
        // SAFETY: the path is a C string that lives through the call.
        let state = unsafe { lmdb_new(c_path.as_ptr()) };
        assert!(!state.is_null(), "LMDB does not open");
        let m = Self { state, path };
        // SAFETY: the state is live; the transaction that made the database ends here.
        assert_eq!(unsafe { lmdb_commit(m.state) }, 0);
        m
    }

    fn put(&mut self, name: &Name, append: c_int) -> bool {
        // SAFETY: as below.
        unsafe {
            lmdb_put(
                self.state,
                name.bytes.as_ptr(),
                4 * K,
                name.record.as_ptr(),
                size_of::<Record>(),
                append,
            ) == 0
        }
    }
}

impl Drop for Lmdb {
    fn drop(&mut self) {
        // SAFETY: made by lmdb_new, and not used again.
        unsafe { lmdb_free(self.state) }
        let _ = std::fs::remove_file(&self.path);
    }
}

// SAFETY, for each call: the state is live, and each pointer is that of a live array with its size in bytes.
impl Engine for Lmdb {
    fn begin(&mut self, kind: usize, reads_only: bool) {
        assert_eq!(
            unsafe { lmdb_begin(self.state, c_int::from(reads_only)) },
            0
        );
        if kind == 4 {
            assert_eq!(unsafe { lmdb_walk(self.state) }, 0);
        }
    }

    fn append(&mut self, name: &Name) -> bool {
        self.put(name, 1)
    }

    fn seek(&mut self, name: &Name, out: &mut Record) -> bool {
        unsafe {
            lmdb_get(
                self.state,
                name.bytes.as_ptr(),
                4 * K,
                out.as_mut_ptr(),
                size_of::<Record>(),
            ) == 0
        }
    }

    fn insert(&mut self, name: &Name) -> bool {
        self.put(name, 0)
    }

    fn delete(&mut self, name: &Name) -> bool {
        unsafe { lmdb_delete(self.state, name.bytes.as_ptr(), 4 * K) == 0 }
    }

    fn walk(&mut self, mut take: impl FnMut(&Record)) {
        let mut out = [0; WPR];
        while unsafe { lmdb_next(self.state, out.as_mut_ptr(), size_of::<Record>()) == 0 } {
            take(&out);
        }
    }

    fn end(&mut self) {
        assert_eq!(unsafe { lmdb_commit(self.state) }, 0);
    }
}
