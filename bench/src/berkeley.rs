//! Berkeley DB in the run, over the shim berkeley.c. A value is the whole record, as for LMDB.
use crate::engine::Engine;
use crate::names::{Name, Record, K, WPR};
use std::ffi::{c_int, c_void};

extern "C" {
    fn berkeley_new() -> *mut c_void;
    fn berkeley_free(b: *mut c_void);
    fn berkeley_put(
        b: *mut c_void,
        key: *const u8,
        key_bytes: usize,
        value: *const u32,
        value_bytes: usize,
    ) -> c_int;
    fn berkeley_get(
        b: *mut c_void,
        key: *const u8,
        key_bytes: usize,
        value: *mut u32,
        value_bytes: usize,
    ) -> c_int;
    fn berkeley_delete(b: *mut c_void, key: *const u8, key_bytes: usize) -> c_int;
    fn berkeley_walk(b: *mut c_void) -> c_int;
    fn berkeley_next(
        b: *mut c_void,
        key: *mut u8,
        key_bytes: usize,
        value: *mut u32,
        value_bytes: usize,
    ) -> c_int;
}

pub struct Berkeley(*mut c_void);

impl Berkeley {
    pub fn new() -> Self {
        // SAFETY: it makes its own state.
        let b = unsafe { berkeley_new() };
        assert!(!b.is_null(), "Berkeley DB does not open");
        Self(b)
    }
}

impl Drop for Berkeley {
    fn drop(&mut self) {
        // SAFETY: made by berkeley_new, and not used again.
        unsafe { berkeley_free(self.0) }
    }
}

// SAFETY, for each call: the state is live, and each pointer is that of a live array with its size in bytes.
impl Engine for Berkeley {
    fn begin(&mut self, kind: usize, _: bool) {
        if kind == 4 {
            assert_eq!(unsafe { berkeley_walk(self.0) }, 0);
        }
    }

    fn append(&mut self, name: &Name) -> bool {
        self.insert(name)
    }

    fn seek(&mut self, name: &Name, out: &mut Record) -> bool {
        unsafe {
            berkeley_get(
                self.0,
                name.bytes.as_ptr(),
                4 * K,
                out.as_mut_ptr(),
                size_of::<Record>(),
            ) == 0
        }
    }

    fn insert(&mut self, name: &Name) -> bool {
        unsafe {
            berkeley_put(
                self.0,
                name.bytes.as_ptr(),
                4 * K,
                name.record.as_ptr(),
                size_of::<Record>(),
            ) == 0
        }
    }

    fn delete(&mut self, name: &Name) -> bool {
        unsafe { berkeley_delete(self.0, name.bytes.as_ptr(), 4 * K) == 0 }
    }

    fn walk(&mut self, mut take: impl FnMut(&Record)) {
        let mut key = [0; 4 * K];
        let mut out = [0; WPR];
        while unsafe {
            berkeley_next(
                self.0,
                key.as_mut_ptr(),
                4 * K,
                out.as_mut_ptr(),
                size_of::<Record>(),
            ) == 0
        } {
            take(&out);
        }
    }

    fn end(&mut self) {}
}
