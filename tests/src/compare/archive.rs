//! The functions of the archive. A slice travels as a pointer and a length.
use crate::salvages::Lending;
use crate::state::State;
use nasturakh_tests::rules::register::Deed;
use nasturakh_tests::rules::Kind;

type Closing = unsafe extern "C" fn(*mut u32, usize, *mut u32, usize, *mut u32, usize) -> u64;
type OnRecords = unsafe extern "C" fn(*mut u32, usize, *mut u32, usize, *mut u32, usize, *mut u32, usize) -> u64;

#[rustfmt::skip]
extern "C" {
    fn nasturakh_create(session: *mut u32, words: usize, file: *mut u32, file_words: usize) -> u64;
    fn nasturakh_open(session: *mut u32, words: usize, file: *mut u32, file_words: usize, buffer: *mut u32, buffer_words: usize, marks: *mut u8, bytes: usize) -> u64;
    fn nasturakh_close(session: *mut u32, words: usize, file: *mut u32, file_words: usize, buffer: *mut u32, buffer_words: usize) -> u64;
    fn nasturakh_seek(session: *mut u32, words: usize, file: *mut u32, file_words: usize, buffer: *mut u32, buffer_words: usize, workspace: *mut u32, record: usize) -> u64;
    fn nasturakh_adv(session: *mut u32, words: usize, file: *mut u32, file_words: usize, buffer: *mut u32, buffer_words: usize, workspace: *mut u32, record: usize) -> u64;
    fn nasturakh_nsert(session: *mut u32, words: usize, file: *mut u32, file_words: usize, buffer: *mut u32, buffer_words: usize, workspace: *mut u32, record: usize) -> u64;
    fn nasturakh_dlete(session: *mut u32, words: usize, file: *mut u32, file_words: usize, buffer: *mut u32, buffer_words: usize, workspace: *mut u32, record: usize) -> u64;
    fn nasturakh_updat(session: *mut u32, words: usize, file: *mut u32, file_words: usize, buffer: *mut u32, buffer_words: usize, workspace: *mut u32, record: usize) -> u64;
    fn nasturakh_xtend(session: *mut u32, words: usize, file: *mut u32, file_words: usize, buffer: *mut u32, buffer_words: usize, workspace: *mut u32, record: usize) -> u64;
    fn nasturakh_enter(session: *mut u32, words: usize, file: *mut u32, file_words: usize, buffer: *mut u32, buffer_words: usize, workspace: *mut u32, record: usize) -> u64;
    fn nasturakh_ask(session: *mut u32, words: usize, file: *mut u32, file_words: usize, buffer: *mut u32, buffer_words: usize, workspace: *mut u32, record: usize) -> u64;
    fn nasturakh_hold(session: *mut u32, words: usize, file: *mut u32, file_words: usize, buffer: *mut u32, buffer_words: usize, workspace: *mut u32, record: usize) -> u64;
    fn nasturakh_free_name(session: *mut u32, words: usize, file: *mut u32, file_words: usize, buffer: *mut u32, buffer_words: usize, workspace: *mut u32, record: usize) -> u64;
    fn nasturakh_romanise(session: *mut u32, words: usize, file: *mut u32, file_words: usize, buffer: *mut u32, buffer_words: usize, workspace: *mut u32, record: usize, spelling: *const u32, spelling_words: usize) -> u64;
    fn nasturakh_view(session: *const u32, words: usize, file: *const u32, file_words: usize, buffer: *const u32, buffer_words: usize, block: usize) -> u64;
    fn nasturakh_copy(session: *const u32, words: usize, file: *const u32, file_words: usize, second: *mut u32, second_words: usize, control: usize, marks: *mut u8, bytes: usize) -> u64;
    fn nasturakh_turn(session: *mut u32, words: usize, file: *mut u32, file_words: usize, marks: *mut u8, bytes: usize) -> u64;
    fn nasturakh_put(row: *mut u32, words: usize, file: *mut u32, file_words: usize, workspace: *mut u32, record: usize) -> u64;
    fn nasturakh_get(row: *mut u32, words: usize, file: *mut u32, file_words: usize, workspace: *mut u32, record: usize) -> u64;
    fn nasturakh_nsert_tray(session: *mut u32, words: usize, file: *mut u32, file_words: usize, buffer: *mut u32, buffer_words: usize, tray: *const u32, tray_words: usize, told: *mut u64, told_words: usize) -> u64;
    fn nasturakh_salvage(session: *const u32, words: usize, copy: *const u32, copy_words: usize, fresh: *mut u32, fresh_words: usize, buffer: *mut u32, buffer_words: usize, report: *mut u32, report_words: usize, told: *mut u64, told_words: usize) -> u64;
    fn nasturakh_most_transfers(session: *const u32, words: usize, plan: *const u32, plan_words: usize) -> u64;
    fn nasturakh_most_blocks(session: *const u32, words: usize, names: u32) -> u64;
    fn nasturakh_most_sections(session: *const u32, words: usize, names: u32) -> u64;
}

fn closing(f: Closing, s: &mut State) -> u64 {
    let (w, l) = (&mut s.words, &mut s.lent);
    // SAFETY: each pointer and length is that of a slice lent for the call, and no two overlap.
    unsafe { f(w.as_mut_ptr(), w.len(), l.file.as_mut_ptr(), l.file.len(), l.buffer.as_mut_ptr(), l.buffer.len()) }
}

fn on_records(f: OnRecords, s: &mut State) -> u64 {
    let (w, l) = (&mut s.words, &mut s.lent);
    // SAFETY: as above.
    unsafe {
        f(
            w.as_mut_ptr(),
            w.len(),
            l.file.as_mut_ptr(),
            l.file.len(),
            l.buffer.as_mut_ptr(),
            l.buffer.len(),
            l.workspace.as_mut_ptr(),
            l.workspace.len(),
        )
    }
}

/// Performs a call; the answer is the transfers times 2^32, plus the number.
pub fn call(kind: Kind, s: &mut State) -> u64 {
    match kind {
        // SAFETY: as above.
        Kind::Create => unsafe { nasturakh_create(s.words.as_mut_ptr(), s.words.len(), s.lent.file.as_mut_ptr(), s.lent.file.len()) },
        Kind::Open => open(s),
        Kind::Close => closing(nasturakh_close, s),
        Kind::Seek => on_records(nasturakh_seek, s),
        Kind::Adv => on_records(nasturakh_adv, s),
        Kind::Nsert => on_records(nasturakh_nsert, s),
        Kind::Dlete => on_records(nasturakh_dlete, s),
        Kind::Updat => on_records(nasturakh_updat, s),
        Kind::Xtend => on_records(nasturakh_xtend, s),
    }
}

fn open(s: &mut State) -> u64 {
    let (w, l) = (&mut s.words, &mut s.lent);
    // SAFETY: as above.
    unsafe {
        nasturakh_open(
            w.as_mut_ptr(),
            w.len(),
            l.file.as_mut_ptr(),
            l.file.len(),
            l.buffer.as_mut_ptr(),
            l.buffer.len(),
            l.marks.as_mut_ptr(),
            l.marks.len(),
        )
    }
}

/// 0 for an empty part, 2^32 plus the part's place in the file, or 2^33 for the buffer.
pub fn view(s: &State, block: usize) -> u64 {
    let (w, l) = (&s.words, &s.lent);
    // SAFETY: as above; VIEW changes nothing.
    unsafe { nasturakh_view(w.as_ptr(), w.len(), l.file.as_ptr(), l.file.len(), l.buffer.as_ptr(), l.buffer.len(), block) }
}

/// A bound for the plan, or 2^64 - 1.
pub fn most_transfers(session: &[u32], plan: &[u32]) -> u64 {
    // SAFETY: as above; both are only read.
    unsafe { nasturakh_most_transfers(session.as_ptr(), session.len(), plan.as_ptr(), plan.len()) }
}

/// The blocks that so many names take at most, or 2^64 - 1.
pub fn most_blocks(session: &[u32], names: u32) -> u64 {
    // SAFETY: as above; it is only read.
    unsafe { nasturakh_most_blocks(session.as_ptr(), session.len(), names) }
}

/// The sections.
pub fn most_sections(session: &[u32], names: u32) -> u64 {
    // SAFETY: as above; it is only read.
    unsafe { nasturakh_most_sections(session.as_ptr(), session.len(), names) }
}

/// Copies the state's file into the second one; the answer is the number.
pub fn copy(s: &mut State, second: &mut [u32], control: usize) -> u64 {
    let (w, l) = (&s.words, &mut s.lent);
    // SAFETY: as above; session and file are only read.
    unsafe {
        nasturakh_copy(
            w.as_ptr(),
            w.len(),
            l.file.as_ptr(),
            l.file.len(),
            second.as_mut_ptr(),
            second.len(),
            control,
            l.marks.as_mut_ptr(),
            l.marks.len(),
        )
    }
}

/// Turns the state's file to the other block form; the answer is the number.
pub fn turn(s: &mut State) -> u64 {
    let (w, l) = (&mut s.words, &mut s.lent);
    // SAFETY: as above.
    unsafe { nasturakh_turn(w.as_mut_ptr(), w.len(), l.file.as_mut_ptr(), l.file.len(), l.marks.as_mut_ptr(), l.marks.len()) }
}

/// PUT of a sequential file.
pub fn put(row: &mut [u32], file: &mut [u32], workspace: &mut [u32]) -> u64 {
    // SAFETY: as above.
    unsafe { nasturakh_put(row.as_mut_ptr(), row.len(), file.as_mut_ptr(), file.len(), workspace.as_mut_ptr(), workspace.len()) }
}

/// GET of a sequential file.
pub fn get(row: &mut [u32], file: &mut [u32], workspace: &mut [u32]) -> u64 {
    // SAFETY: as above.
    unsafe { nasturakh_get(row.as_mut_ptr(), row.len(), file.as_mut_ptr(), file.len(), workspace.as_mut_ptr(), workspace.len()) }
}

/// Puts in the records of a tray; the answer is the number alone.
pub fn tray(s: &mut State, tray: &[u32], told: &mut [u64]) -> u64 {
    let (w, l) = (&mut s.words, &mut s.lent);
    // SAFETY: as above; the tray is only read.
    unsafe {
        nasturakh_nsert_tray(
            w.as_mut_ptr(),
            w.len(),
            l.file.as_mut_ptr(),
            l.file.len(),
            l.buffer.as_mut_ptr(),
            l.buffer.len(),
            tray.as_ptr(),
            tray.len(),
            told.as_mut_ptr(),
            told.len(),
        )
    }
}

/// Salvage; the answer is the number alone.
pub fn salvage(l: &mut Lending) -> u64 {
    // SAFETY: as above; session and copy are only read.
    unsafe {
        nasturakh_salvage(
            l.session.as_ptr(),
            l.session.len(),
            l.copy.as_ptr(),
            l.copy.len(),
            l.fresh.as_mut_ptr(),
            l.fresh.len(),
            l.buffer.as_mut_ptr(),
            l.buffer.len(),
            l.report.as_mut_ptr(),
            l.report.len(),
            l.told.as_mut_ptr(),
            l.told.len(),
        )
    }
}

/// A call of the register.
pub fn register(deed: &Deed, s: &mut State) -> u64 {
    match deed {
        Deed::Enter => on_records(nasturakh_enter, s),
        Deed::Ask => on_records(nasturakh_ask, s),
        Deed::Hold => on_records(nasturakh_hold, s),
        Deed::Free => on_records(nasturakh_free_name, s),
        Deed::Romanise(spelling) => romanise(spelling, s),
    }
}

fn romanise(spelling: &[u32], s: &mut State) -> u64 {
    let (w, l) = (&mut s.words, &mut s.lent);
    // SAFETY: as above; the spelling is only read.
    unsafe {
        nasturakh_romanise(
            w.as_mut_ptr(),
            w.len(),
            l.file.as_mut_ptr(),
            l.file.len(),
            l.buffer.as_mut_ptr(),
            l.buffer.len(),
            l.workspace.as_mut_ptr(),
            l.workspace.len(),
            spelling.as_ptr(),
            spelling.len(),
        )
    }
}
