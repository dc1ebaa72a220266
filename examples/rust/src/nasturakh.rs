//! A safe wrapper of the archive's functions. Copy this file, and link libcapi.a.
//!
//! A `Session` is the 73 words that travel with every call, 74 in the second block form. File, buffer, workspace and marks are lent by the
//! caller; Rust's borrows keep them apart, which is all that the functions ask of a caller. A wrong length is refused by its number.

/// Done.
pub const DONE: u32 = 0;
/// No record has the key; NSERT: one has it already.
pub const NOT_FOUND: u32 = 1;
/// XTEND: the file has an ordinary record whose key is not below the key.
pub const OUT_OF_SEQUENCE: u32 = 5;
/// A parameter or a slice's length is wrong.
pub const WRONG_SIZE: u32 = 0o020007;
/// NSERT, DLETE, UPDAT, XTEND of the reading set.
pub const READING_ONLY: u32 = 0o020010;
/// PUT, GET: the record is of length 0, or larger than the data area.
pub const WRONG_LENGTH: u32 = 0o020012;
/// OPEN, COPY or TURN of an open session.
pub const ALREADY_OPEN: u32 = 0o020006;
/// Another call on a closed session.
pub const IS_CLOSED: u32 = 0o020005;
/// A word of the workspace above 262143, or the reserved key.
pub const WRONG_KEY: u32 = 0o030001;
/// ADV, GET: no record is left.
pub const AT_END: u32 = 0o030002;
/// ROMANISE, HOLD, FREE: the name is in another state; its record is in the workspace.
pub const NOT_ALLOWED: u32 = 0o030007;
/// Stored; but the record's block is now full and no block is free.
pub const NONE_FREE: u32 = 0o070001;
/// Not stored: too few blocks or sections are free; PUT: no block is left.
pub const NO_ROOM: u32 = 0o070002;
/// OPEN, COPY, TURN: not a good file in the session's block form; else a bad number in file or buffer, a wrong kind of block too.
pub const BAD_FILE: u32 = 0o070003;

/// The states of a name in the register: the first data word of its record.
pub const RAW: u32 = 0;
pub const ROMANISED: u32 = 1;
pub const HELD: u32 = 2;

const WORDS: usize = 74;
const FORM: usize = 73;
const ROW: usize = 7;
const IN_FILE: u64 = 1 << 32;
const IN_BUFFER: u64 = 1 << 33;

mod raw {
    extern "C" {
        pub fn nasturakh_create(
            session: *const u32,
            session_words: usize,
            file: *mut u32,
            file_words: usize,
        ) -> u64;
        pub fn nasturakh_open(
            session: *mut u32,
            session_words: usize,
            file: *const u32,
            file_words: usize,
            buffer: *const u32,
            buffer_words: usize,
            marks: *mut u8,
            marks_bytes: usize,
        ) -> u64;
        pub fn nasturakh_close(
            session: *mut u32,
            session_words: usize,
            file: *mut u32,
            file_words: usize,
            buffer: *const u32,
            buffer_words: usize,
        ) -> u64;
        pub fn nasturakh_view(
            session: *const u32,
            session_words: usize,
            file: *const u32,
            file_words: usize,
            buffer: *const u32,
            buffer_words: usize,
            block: usize,
        ) -> u64;
        pub fn nasturakh_copy(
            session: *const u32,
            session_words: usize,
            file: *const u32,
            file_words: usize,
            second: *mut u32,
            second_words: usize,
            control: usize,
            marks: *mut u8,
            marks_bytes: usize,
        ) -> u64;
        pub fn nasturakh_nsert_tray(
            session: *mut u32,
            session_words: usize,
            file: *mut u32,
            file_words: usize,
            buffer: *mut u32,
            buffer_words: usize,
            tray: *const u32,
            tray_words: usize,
            told: *mut u64,
            told_words: usize,
        ) -> u64;
        pub fn nasturakh_salvage(
            session: *const u32,
            session_words: usize,
            copy: *const u32,
            copy_words: usize,
            fresh: *mut u32,
            fresh_words: usize,
            buffer: *mut u32,
            buffer_words: usize,
            report: *mut u32,
            report_words: usize,
            told: *mut u64,
            told_words: usize,
        ) -> u64;
        pub fn nasturakh_turn(
            session: *mut u32,
            session_words: usize,
            file: *mut u32,
            file_words: usize,
            marks: *mut u8,
            marks_bytes: usize,
        ) -> u64;
        pub fn nasturakh_most_transfers(
            session: *const u32,
            session_words: usize,
            plan: *const u32,
            plan_words: usize,
        ) -> u64;
        pub fn nasturakh_most_blocks(session: *const u32, session_words: usize, names: u32) -> u64;
        pub fn nasturakh_most_sections(
            session: *const u32,
            session_words: usize,
            names: u32,
        ) -> u64;
        pub fn nasturakh_romanise(
            session: *mut u32,
            session_words: usize,
            file: *mut u32,
            file_words: usize,
            buffer: *mut u32,
            buffer_words: usize,
            work: *mut u32,
            work_words: usize,
            spelling: *const u32,
            spelling_words: usize,
        ) -> u64;
        pub fn nasturakh_put(
            row: *mut u32,
            row_words: usize,
            file: *mut u32,
            file_words: usize,
            work: *const u32,
            work_words: usize,
        ) -> u64;
        pub fn nasturakh_get(
            row: *mut u32,
            row_words: usize,
            file: *const u32,
            file_words: usize,
            work: *mut u32,
            work_words: usize,
        ) -> u64;
    }

    macro_rules! keyed {
        ($($name:ident: $work:ty),*) => {
            extern "C" {
                $(pub fn $name(
                    session: *mut u32,
                    session_words: usize,
                    file: *mut u32,
                    file_words: usize,
                    buffer: *mut u32,
                    buffer_words: usize,
                    work: $work,
                    work_words: usize,
                ) -> u64;)*
            }
        };
    }

    keyed!(
        nasturakh_seek: *mut u32,
        nasturakh_adv: *mut u32,
        nasturakh_nsert: *const u32,
        nasturakh_dlete: *const u32,
        nasturakh_updat: *const u32,
        nasturakh_xtend: *const u32,
        nasturakh_enter: *mut u32,
        nasturakh_ask: *mut u32,
        nasturakh_hold: *mut u32,
        nasturakh_free_name: *mut u32
    );
}

/// The parameters of a search file.
#[derive(Clone, Copy, Debug, PartialEq, Eq)]
pub struct Parameters {
    /// Words per block: even, 6..=4096.
    pub wpb: u32,
    /// Words per record, K or more.
    pub wpr: u32,
    /// Words per key: 1..=63.
    pub k: u32,
    /// Places that XTEND leaves free in a block.
    pub space: u32,
    /// Most index blocks in use: 1..=16383.
    pub control: u32,
    /// Blocks: 2..=262142.
    pub n: u32,
}

impl Parameters {
    /// The words of a file with these parameters.
    pub fn file_words(&self) -> usize {
        let master = 3 + self.control as usize * (self.k as usize + 1);
        master + master % 2 + self.n as usize * self.wpb as usize
    }
}

/// What a call answers.
#[derive(Clone, Copy, Debug, PartialEq, Eq)]
pub struct Answer {
    pub number: u32,
    /// Block transfers made.
    pub transfers: u32,
}

impl Answer {
    pub(crate) fn of(packed: u64) -> Self {
        Self {
            number: packed as u32,
            transfers: (packed >> 32) as u32,
        }
    }

    /// Whether the call did what it was asked to do: 0, or 070001, which stored as well.
    pub fn is_done(self) -> bool {
        self.number == DONE || self.number == NONE_FREE
    }
}

/// What a tray comes to.
#[derive(Clone, Copy, Debug, PartialEq, Eq)]
pub struct Trayed {
    /// Records stored: the first ones of the tray.
    pub stored: u64,
    /// The number of the last NSERT; 0 where there was none.
    pub number: u32,
    /// Block transfers made by all its NSERTs.
    pub transfers: u64,
}

impl Trayed {
    /// Whether every record was stored.
    pub fn is_done(self) -> bool {
        self.number == DONE || self.number == NONE_FREE
    }
}

/// What salvage comes to.
#[derive(Clone, Copy, Debug, PartialEq, Eq)]
pub struct Salvaged {
    /// 0, or 020007.
    pub number: u32,
    /// Block transfers made by its NSERTs and its CLOSE.
    pub transfers: u64,
    /// Lines of the report, three words each: block, place (0 for a block passed over), reason.
    pub lines: u64,
}

/// What a session is planned to do: the most calls of each kind, refused ones counted, and the most records that NSERT and XTEND put in.
#[derive(Clone, Copy, Debug, Default, PartialEq, Eq)]
pub struct Plan {
    pub seeks: u32,
    pub updats: u32,
    pub nserts: u32,
    pub advs: u32,
    pub dletes: u32,
    pub xtends: u32,
    pub closes: u32,
    pub records: u32,
}

/// A session on one file: hand the same file and buffer to each of its calls.
#[derive(Clone, Debug, PartialEq, Eq)]
pub struct Session {
    words: [u32; WORDS],
}

macro_rules! calls {
    ($($(#[$doc:meta])* $name:ident, $raw:ident, $work:ty, $pointer:ident;)*) => {
        $($(#[$doc])*
        pub fn $name(&mut self, file: &mut [u32], buffer: &mut [u32], work: $work) -> Answer {
            let words = self.len();
            // SAFETY: each pointer is that of a live slice with its length, and the borrows keep what is written apart from the rest.
            Answer::of(unsafe {
                raw::$raw(
                    self.words.as_mut_ptr(),
                    words,
                    file.as_mut_ptr(),
                    file.len(),
                    buffer.as_mut_ptr(),
                    buffer.len(),
                    work.$pointer(),
                    work.len(),
                )
            })
        })*
    };
}

impl Session {
    /// A closed session, in the first block form.
    pub fn new(p: Parameters) -> Self {
        Self::with_form(p, 1)
    }

    /// A closed session in this block form: 1, or 2, in which blocks say what they are.
    pub fn with_form(p: Parameters, form: u32) -> Self {
        let mut words = [0; WORDS];
        words[..6].copy_from_slice(&[p.wpb, p.wpr, p.k, p.space, p.control, p.n]);
        words[FORM] = form;
        Self { words }
    }

    /// The block form.
    pub fn form(&self) -> u32 {
        self.words[FORM]
    }

    /// The words that are lent: the first form needs none to say it.
    fn len(&self) -> usize {
        if self.form() == 1 {
            FORM
        } else {
            WORDS
        }
    }

    /// CREATE: writes a new file with no records.
    pub fn create(&self, file: &mut [u32]) -> Answer {
        // SAFETY: as for the other calls.
        Answer::of(unsafe {
            raw::nasturakh_create(
                self.words.as_ptr(),
                self.len(),
                file.as_mut_ptr(),
                file.len(),
            )
        })
    }

    /// OPEN: inspects the file; marks each block 1 in use, 2 on the free chain, 0 never used.
    pub fn open(&mut self, file: &[u32], buffer: &[u32], marks: &mut [u8]) -> Answer {
        let words = self.len();
        // SAFETY: as for the other calls; file and buffer are only read.
        Answer::of(unsafe {
            raw::nasturakh_open(
                self.words.as_mut_ptr(),
                words,
                file.as_ptr(),
                file.len(),
                buffer.as_ptr(),
                buffer.len(),
                marks.as_mut_ptr(),
                marks.len(),
            )
        })
    }

    /// CLOSE: writes the buffer to its block if need be, and closes.
    pub fn close(&mut self, file: &mut [u32], buffer: &[u32]) -> Answer {
        let words = self.len();
        // SAFETY: as for the other calls; the buffer is only read.
        Answer::of(unsafe {
            raw::nasturakh_close(
                self.words.as_mut_ptr(),
                words,
                file.as_mut_ptr(),
                file.len(),
                buffer.as_ptr(),
                buffer.len(),
            )
        })
    }

    /// VIEW: the current text of a block, or an empty part.
    pub fn view<'a>(&self, file: &'a [u32], buffer: &'a [u32], block: usize) -> &'a [u32] {
        // SAFETY: as for the other calls; all are only read.
        let found = unsafe {
            raw::nasturakh_view(
                self.words.as_ptr(),
                self.len(),
                file.as_ptr(),
                file.len(),
                buffer.as_ptr(),
                buffer.len(),
                block,
            )
        };
        match found {
            ..IN_FILE => &[],
            IN_BUFFER => buffer,
            at => &file[(at - IN_FILE) as usize..][..buffer.len()],
        }
    }

    /// COPY: writes the file, which must be closed and good, into a second one with another CONTROL. Session and file stay as they are; the
    /// second file is used with a session of its own, `Session::new(Parameters { control, .. })`.
    pub fn copy(
        &self,
        file: &[u32],
        second: &mut [u32],
        control: usize,
        marks: &mut [u8],
    ) -> Answer {
        // SAFETY: as for the other calls; session and file are only read.
        Answer::of(unsafe {
            raw::nasturakh_copy(
                self.words.as_ptr(),
                self.len(),
                file.as_ptr(),
                file.len(),
                second.as_mut_ptr(),
                second.len(),
                control,
                marks.as_mut_ptr(),
                marks.len(),
            )
        })
    }

    /// NSERT of each record of a tray in turn, up to the first that is not stored. Word 0 says how many records follow, each of WPR words.
    pub fn nsert_tray(&mut self, file: &mut [u32], buffer: &mut [u32], tray: &[u32]) -> Trayed {
        let mut told = [0; 2];
        // SAFETY: as for the other calls; the tray is only read.
        let number = unsafe {
            raw::nasturakh_nsert_tray(
                self.words.as_mut_ptr(),
                WORDS,
                file.as_mut_ptr(),
                file.len(),
                buffer.as_mut_ptr(),
                buffer.len(),
                tray.as_ptr(),
                tray.len(),
                told.as_mut_ptr(),
                told.len(),
            )
        };
        Trayed {
            stored: told[1],
            number: number as u32,
            transfers: told[0],
        }
    }

    /// SALVAGE: builds a fresh file of the records of a broken copy, by this session's parameters, and reports every block passed over and every record not
    /// carried. The report has 3 * N * (1 + D) words or more; the buffer is lent for the work.
    pub fn salvage(
        &self,
        copy: &[u32],
        fresh: &mut [u32],
        buffer: &mut [u32],
        report: &mut [u32],
    ) -> Salvaged {
        let mut told = [0; 2];
        // SAFETY: as for the other calls; session and copy are only read.
        let number = unsafe {
            raw::nasturakh_salvage(
                self.words.as_ptr(),
                self.len(),
                copy.as_ptr(),
                copy.len(),
                fresh.as_mut_ptr(),
                fresh.len(),
                buffer.as_mut_ptr(),
                buffer.len(),
                report.as_mut_ptr(),
                report.len(),
                told.as_mut_ptr(),
                told.len(),
            )
        };
        Salvaged {
            number: number as u32,
            transfers: told[0],
            lines: told[1],
        }
    }

    /// TURN: makes of the file, which must be closed and good, the same file in the other block form; the session is then of that form.
    pub fn turn(&mut self, file: &mut [u32], marks: &mut [u8]) -> Answer {
        // SAFETY: as for the other calls.
        Answer::of(unsafe {
            raw::nasturakh_turn(
                self.words.as_mut_ptr(),
                WORDS,
                file.as_mut_ptr(),
                file.len(),
                marks.as_mut_ptr(),
                marks.len(),
            )
        })
    }

    /// The most transfers that a session with these parameters can make which keeps to the plan, from CREATE and OPEN on; none where a
    /// parameter is out of range.
    pub fn most_transfers(&self, plan: &Plan) -> Option<u64> {
        let words = [
            plan.seeks,
            plan.updats,
            plan.nserts,
            plan.advs,
            plan.dletes,
            plan.xtends,
            plan.closes,
            plan.records,
        ];
        // SAFETY: as for the other calls; both are only read.
        let most = unsafe {
            raw::nasturakh_most_transfers(
                self.words.as_ptr(),
                self.len(),
                words.as_ptr(),
                words.len(),
            )
        };
        (most != u64::MAX).then_some(most)
    }

    /// The most blocks that so many names take which NSERT puts in, in any order: N for them. None where a parameter is out of range.
    pub fn most_blocks(&self, names: u32) -> Option<u64> {
        // SAFETY: as for the other calls; the words are only read.
        let most = unsafe { raw::nasturakh_most_blocks(self.words.as_ptr(), WORDS, names) };
        (most != u64::MAX).then_some(most)
    }

    /// The most sections that they take: CONTROL for them.
    pub fn most_sections(&self, names: u32) -> Option<u64> {
        // SAFETY: as for the other calls; the words are only read.
        let most = unsafe { raw::nasturakh_most_sections(self.words.as_ptr(), WORDS, names) };
        (most != u64::MAX).then_some(most)
    }

    calls! {
        /// SEEK: the record with the workspace's key to the workspace.
        seek, nasturakh_seek, &mut [u32], as_mut_ptr;
        /// ADV: the record with the least key above the position, or the first one, to the workspace.
        adv, nasturakh_adv, &mut [u32], as_mut_ptr;
        /// NSERT: the workspace's record put in, unless its key is there.
        nsert, nasturakh_nsert, &[u32], as_ptr;
        /// DLETE: the record with the workspace's key taken out.
        dlete, nasturakh_dlete, &[u32], as_ptr;
        /// UPDAT: the record with the workspace's key replaced by the workspace.
        updat, nasturakh_updat, &[u32], as_ptr;
        /// XTEND: the workspace's record put in behind all others.
        xtend, nasturakh_xtend, &[u32], as_ptr;
        /// The register's ENTER: the workspace's key put in as a raw name.
        enter, nasturakh_enter, &mut [u32], as_mut_ptr;
        /// The register's ASK: the name's record to the workspace.
        ask, nasturakh_ask, &mut [u32], as_mut_ptr;
        /// The register's HOLD: a romanised name held back.
        hold, nasturakh_hold, &mut [u32], as_mut_ptr;
        /// The register's FREE: a held name romanised again, its spelling as it was.
        free_name, nasturakh_free_name, &mut [u32], as_mut_ptr;
    }

    /// The register's ROMANISE: a raw name romanised with the spelling, of exactly WPR-K-1 words.
    pub fn romanise(
        &mut self,
        file: &mut [u32],
        buffer: &mut [u32],
        work: &mut [u32],
        spelling: &[u32],
    ) -> Answer {
        // SAFETY: as for the other calls; the spelling is only read.
        Answer::of(unsafe {
            raw::nasturakh_romanise(
                self.words.as_mut_ptr(),
                WORDS,
                file.as_mut_ptr(),
                file.len(),
                buffer.as_mut_ptr(),
                buffer.len(),
                work.as_mut_ptr(),
                work.len(),
                spelling.as_ptr(),
                spelling.len(),
            )
        })
    }
}

/// The records of a sequential file: all of the same number of words, or each led by its length.
#[derive(Clone, Copy, Debug, PartialEq, Eq)]
pub enum Records {
    Fixed(u32),
    Variable,
}

/// A place in a sequential file, from which records are put or read one after the other.
#[derive(Clone, Debug, PartialEq, Eq)]
pub struct Row {
    words: [u32; ROW],
}

impl Row {
    /// The start of a file of blocks of so many words, with so many leader words; `left` records have been put and are to be read.
    pub fn new(wpb: u32, leaders: u32, records: Records, left: u32) -> Self {
        let (kind, wpr) = match records {
            Records::Fixed(wpr) => (0, wpr),
            Records::Variable => (1, 0),
        };
        Self {
            words: [wpb, leaders, kind, wpr, 0, 0, left],
        }
    }

    /// How many are still to be read.
    pub fn left(&self) -> u32 {
        self.words[6]
    }

    /// PUT: the workspace's record behind the last one.
    pub fn put(&mut self, file: &mut [u32], work: &[u32]) -> Answer {
        // SAFETY: as for the calls of a session; the workspace is only read.
        Answer::of(unsafe {
            raw::nasturakh_put(
                self.words.as_mut_ptr(),
                ROW,
                file.as_mut_ptr(),
                file.len(),
                work.as_ptr(),
                work.len(),
            )
        })
    }

    /// GET: the next record to the workspace.
    pub fn get(&mut self, file: &[u32], work: &mut [u32]) -> Answer {
        // SAFETY: as for the calls of a session; the file is only read.
        Answer::of(unsafe {
            raw::nasturakh_get(
                self.words.as_mut_ptr(),
                ROW,
                file.as_ptr(),
                file.len(),
                work.as_mut_ptr(),
                work.len(),
            )
        })
    }
}
