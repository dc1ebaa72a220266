//! A safe wrapper of the reading set. Copy this file and nasturakh.rs, and link libcreading.a.
//!
//! The file is lent to be read alone in every call, so it may lie in memory that cannot be written.
#![allow(dead_code)]

use crate::nasturakh::{Answer, Parameters};

const WORDS: usize = 74;
const FORM: usize = 73;
const IN_FILE: u64 = 1 << 32;
const IN_BUFFER: u64 = 1 << 33;

mod raw {
    extern "C" {
        pub fn nasturakh_reading_open(
            session: *mut u32,
            session_words: usize,
            file: *const u32,
            file_words: usize,
            buffer: *const u32,
            buffer_words: usize,
            marks: *mut u8,
            marks_bytes: usize,
        ) -> u64;
        pub fn nasturakh_reading_close(
            session: *mut u32,
            session_words: usize,
            file: *const u32,
            file_words: usize,
            buffer: *const u32,
            buffer_words: usize,
        ) -> u64;
        pub fn nasturakh_reading_view(
            session: *const u32,
            session_words: usize,
            file: *const u32,
            file_words: usize,
            buffer: *const u32,
            buffer_words: usize,
            block: usize,
        ) -> u64;
    }

    macro_rules! keyed {
        ($($name:ident: $buffer:ty, $work:ty;)*) => {
            extern "C" {
                $(pub fn $name(
                    session: *mut u32,
                    session_words: usize,
                    file: *const u32,
                    file_words: usize,
                    buffer: $buffer,
                    buffer_words: usize,
                    work: $work,
                    work_words: usize,
                ) -> u64;)*
            }
        };
    }

    keyed!(
        nasturakh_reading_seek: *mut u32, *mut u32;
        nasturakh_reading_adv: *mut u32, *mut u32;
        nasturakh_reading_nsert: *const u32, *const u32;
        nasturakh_reading_dlete: *const u32, *const u32;
        nasturakh_reading_updat: *const u32, *const u32;
        nasturakh_reading_xtend: *const u32, *const u32;
    );
}

/// A reading session on one finished list: hand the same file and buffer to each of its calls.
#[derive(Clone, Debug, PartialEq, Eq)]
pub struct ReadingSession {
    words: [u32; WORDS],
}

macro_rules! calls {
    ($($(#[$doc:meta])* $name:ident, $raw:ident, $words:ty, $pointer:ident;)*) => {
        $($(#[$doc])*
        pub fn $name(&mut self, file: &[u32], buffer: $words, work: $words) -> Answer {
            let words = self.len();
            // SAFETY: each pointer is that of a live slice with its length, and the borrows keep what is written apart from the rest.
            Answer::of(unsafe {
                raw::$raw(
                    self.words.as_mut_ptr(),
                    words,
                    file.as_ptr(),
                    file.len(),
                    buffer.$pointer(),
                    buffer.len(),
                    work.$pointer(),
                    work.len(),
                )
            })
        })*
    };
}

impl ReadingSession {
    /// A closed session, in the first block form. CONTROL must be 1.
    pub fn new(p: Parameters) -> Self {
        Self::with_form(p, 1)
    }

    /// A closed session in this block form.
    pub fn with_form(p: Parameters, form: u32) -> Self {
        let mut words = [0; WORDS];
        words[..6].copy_from_slice(&[p.wpb, p.wpr, p.k, p.space, p.control, p.n]);
        words[FORM] = form;
        Self { words }
    }

    /// The words that are lent: the first form needs none to say it.
    fn len(&self) -> usize {
        if self.words[FORM] == 1 {
            FORM
        } else {
            WORDS
        }
    }

    /// OPEN: 0 for a finished list, 070003 for any other file.
    pub fn open(&mut self, file: &[u32], buffer: &[u32], marks: &mut [u8]) -> Answer {
        let words = self.len();
        // SAFETY: as for the other calls.
        Answer::of(unsafe {
            raw::nasturakh_reading_open(
                self.words.as_mut_ptr(),
                words,
                file.as_ptr(),
                file.len(),
                buffer.as_ptr(),
                buffer.len(),
                marks.as_mut_ptr(),
                marks.len(),
            )
        })
    }

    /// CLOSE: there is nothing to write.
    pub fn close(&mut self, file: &[u32], buffer: &[u32]) -> Answer {
        let words = self.len();
        // SAFETY: as for the other calls.
        Answer::of(unsafe {
            raw::nasturakh_reading_close(
                self.words.as_mut_ptr(),
                words,
                file.as_ptr(),
                file.len(),
                buffer.as_ptr(),
                buffer.len(),
            )
        })
    }

    /// VIEW: the current text of a block; empty for a closed session, wrong sizes, a block that is none, or CONTROL other than 1.
    pub fn view<'a>(&self, file: &'a [u32], buffer: &'a [u32], block: usize) -> &'a [u32] {
        // SAFETY: as for the other calls.
        let place = unsafe {
            raw::nasturakh_reading_view(
                self.words.as_ptr(),
                self.len(),
                file.as_ptr(),
                file.len(),
                buffer.as_ptr(),
                buffer.len(),
                block,
            )
        };
        if place < IN_FILE {
            return &[];
        }
        if place == IN_BUFFER {
            return buffer;
        }
        let start = (place - IN_FILE) as usize;
        &file[start..start + self.words[0] as usize]
    }

    calls!(
        /// SEEK: the record with the workspace's key to the workspace; 0 or 2 transfers.
        seek, nasturakh_reading_seek, &mut [u32], as_mut_ptr;
        /// ADV: the record with the least key above the position to the workspace; 0, 2 or 3 transfers.
        adv, nasturakh_reading_adv, &mut [u32], as_mut_ptr;
        /// NSERT: refused, `READING_ONLY`.
        nsert, nasturakh_reading_nsert, &[u32], as_ptr;
        /// DLETE: refused.
        dlete, nasturakh_reading_dlete, &[u32], as_ptr;
        /// UPDAT: refused.
        updat, nasturakh_reading_updat, &[u32], as_ptr;
        /// XTEND: refused.
        xtend, nasturakh_reading_xtend, &[u32], as_ptr;
    );
}
