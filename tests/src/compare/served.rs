//! The functions of the archive on a machine that can't link them: asked of a program that has them (`src/server.c`), which the toolchain's
//! emulator runs. NASTURAKH_SERVER names it.
use crate::salvages::Lending;
use crate::state::State;
use nasturakh_tests::rules::register::Deed;
use nasturakh_tests::rules::{Kind, Lent};
use std::io::{BufReader, BufWriter, Read, Write};
use std::process::{ChildStdin, ChildStdout, Command, Stdio};
use std::sync::Mutex;

const VIEW: u64 = 9;
const MOST: u64 = 10;
const COPY: u64 = 11;
const PUT: u64 = 12;
const GET: u64 = 13;
const BLOCKS: u64 = 14;
const SECTIONS: u64 = 15;
const TRAY: u64 = 16;
const ENTER: u64 = 17;
const ASK: u64 = 18;
const HOLD: u64 = 19;
const FREE: u64 = 20;
const ROMANISE: u64 = 21;
const TURN: u64 = 22;
const SALVAGE: u64 = 23;

struct Server {
    to: BufWriter<ChildStdin>,
    from: BufReader<ChildStdout>,
}

static SERVER: Mutex<Option<Server>> = Mutex::new(None);

fn start() -> Server {
    let program = std::env::var("NASTURAKH_SERVER").expect("NASTURAKH_SERVER names the program: tests/run builds it");
    let run = concat!(env!("CARGO_MANIFEST_DIR"), "/../tools/x86-run");
    let child = Command::new(run).arg(program).stdin(Stdio::piped()).stdout(Stdio::piped()).spawn().expect("tools/x86-run");
    let (to, from) = (child.stdin.expect("piped"), child.stdout.expect("piped"));
    Server { to: BufWriter::with_capacity(1 << 16, to), from: BufReader::with_capacity(1 << 16, from) }
}

fn number_of(kind: Kind) -> u64 {
    match kind {
        Kind::Create => 0,
        Kind::Open => 1,
        Kind::Close => 2,
        Kind::Seek => 3,
        Kind::Adv => 4,
        Kind::Nsert => 5,
        Kind::Dlete => 6,
        Kind::Updat => 7,
        Kind::Xtend => 8,
    }
}

fn bytes(words: &[u32]) -> Vec<u8> {
    words.iter().flat_map(|w| w.to_le_bytes()).collect()
}

impl Server {
    fn ask(&mut self, kind: u64, block: u64, s: &State) -> std::io::Result<()> {
        let l = &s.lent;
        let lengths = [s.words.len(), l.file.len(), l.buffer.len(), l.workspace.len(), l.marks.len()];
        for number in [kind, block].into_iter().chain(lengths.map(|n| n as u64)) {
            self.to.write_all(&number.to_le_bytes())?;
        }
        for words in [&s.words, &l.file, &l.buffer, &l.workspace] {
            self.to.write_all(&bytes(words))?;
        }
        self.to.write_all(&l.marks)?;
        self.to.flush()
    }

    fn words(&mut self, words: &mut [u32]) -> std::io::Result<()> {
        let mut left = vec![0; 4 * words.len()];
        self.from.read_exact(&mut left)?;
        for (word, four) in words.iter_mut().zip(left.chunks_exact(4)) {
            *word = u32::from_le_bytes(four.try_into().expect("four bytes"));
        }
        Ok(())
    }

    fn hear(&mut self, s: &mut State) -> std::io::Result<u64> {
        let mut answer = [0; 8];
        self.from.read_exact(&mut answer)?;
        for words in [&mut s.words, &mut s.lent.file, &mut s.lent.buffer, &mut s.lent.workspace] {
            self.words(words)?;
        }
        self.from.read_exact(&mut s.lent.marks)?;
        Ok(u64::from_le_bytes(answer))
    }
}

fn asked(kind: u64, block: u64, s: &mut State) -> u64 {
    let mut held = SERVER.lock().expect("one thread");
    let server = held.get_or_insert_with(start);
    let answer = server.ask(kind, block, s).and_then(|()| server.hear(s));
    answer.expect("the program that has the functions answers")
}

/// Performs a call; the answer is the transfers times 2^32, plus the number.
pub fn call(kind: Kind, s: &mut State) -> u64 {
    asked(number_of(kind), 0, s)
}

/// 0 for an empty part, 2^32 plus the part's place in the file, or 2^33 for the buffer.
pub fn view(s: &State, block: usize) -> u64 {
    let mut left = s.clone();
    let answer = asked(VIEW, block as u64, &mut left);
    assert!(left == *s, "VIEW changed a word");
    answer
}

/// A bound for the plan, or 2^64 - 1. The plan travels as the workspace.
pub fn most_transfers(session: &[u32], plan: &[u32]) -> u64 {
    planned(MOST, 0, session, plan)
}

fn planned(kind: u64, names: u64, session: &[u32], plan: &[u32]) -> u64 {
    let lent = Lent { file: Vec::new(), buffer: Vec::new(), workspace: plan.to_vec(), marks: Vec::new() };
    let s = State { words: session.to_vec(), lent };
    let mut left = s.clone();
    let answer = asked(kind, names, &mut left);
    assert!(left == s, "a word was changed");
    answer
}

/// The blocks that so many names take at most, or 2^64 - 1. The names travel as the block.
pub fn most_blocks(session: &[u32], names: u32) -> u64 {
    planned(BLOCKS, u64::from(names), session, &[])
}

/// The sections.
pub fn most_sections(session: &[u32], names: u32) -> u64 {
    planned(SECTIONS, u64::from(names), session, &[])
}

/// Copies the state's file into the second one; the answer is the number. The second file travels as the buffer, the new CONTROL as the block.
pub fn copy(s: &mut State, second: &mut [u32], control: usize) -> u64 {
    let mut lent = State { words: s.words.clone(), lent: Lent { buffer: second.to_vec(), workspace: Vec::new(), ..s.lent.clone() } };
    let answer = asked(COPY, control as u64, &mut lent);
    second.copy_from_slice(&lent.lent.buffer);
    s.words = lent.words;
    s.lent.file = lent.lent.file;
    s.lent.marks = lent.lent.marks;
    answer
}

/// Turns the state's file to the other block form; the answer is the number.
pub fn turn(s: &mut State) -> u64 {
    asked(TURN, 0, s)
}

/// A call of a sequential file. The row travels as the session.
fn in_a_row(kind: u64, row: &mut [u32], file: &mut [u32], workspace: &mut [u32]) -> u64 {
    let lent = Lent { file: file.to_vec(), buffer: Vec::new(), workspace: workspace.to_vec(), marks: Vec::new() };
    let mut s = State { words: row.to_vec(), lent };
    let answer = asked(kind, 0, &mut s);
    row.copy_from_slice(&s.words);
    file.copy_from_slice(&s.lent.file);
    workspace.copy_from_slice(&s.lent.workspace);
    answer
}

/// PUT of a sequential file.
pub fn put(row: &mut [u32], file: &mut [u32], workspace: &mut [u32]) -> u64 {
    in_a_row(PUT, row, file, workspace)
}

/// GET of a sequential file.
pub fn get(row: &mut [u32], file: &mut [u32], workspace: &mut [u32]) -> u64 {
    in_a_row(GET, row, file, workspace)
}

/// Puts in the records of a tray; the answer is the number alone. The tray travels as the workspace, what is told as the marks.
pub fn tray(s: &mut State, tray: &[u32], told: &mut [u64]) -> u64 {
    let marks = told.iter().flat_map(|figure| figure.to_le_bytes()).collect();
    let lent = Lent { file: s.lent.file.clone(), buffer: s.lent.buffer.clone(), workspace: tray.to_vec(), marks };
    let mut asking = State { words: s.words.clone(), lent };
    let answer = asked(TRAY, 0, &mut asking);
    assert!(asking.lent.workspace == tray, "a word of the tray was changed");
    for (figure, eight) in told.iter_mut().zip(asking.lent.marks.chunks_exact(8)) {
        *figure = u64::from_le_bytes(eight.try_into().expect("eight bytes"));
    }
    s.words = asking.words;
    s.lent.file = asking.lent.file;
    s.lent.buffer = asking.lent.buffer;
    answer
}

/// Salvage; the answer is the number alone. The fresh file travels as the file, the copy and then the report as the workspace, the copy's length as the block,
/// what is told as the marks.
pub fn salvage(l: &mut Lending) -> u64 {
    let marks = l.told.iter().flat_map(|figure| figure.to_le_bytes()).collect();
    let workspace = [&l.copy[..], &l.report[..]].concat();
    let lent = Lent { file: l.fresh.clone(), buffer: l.buffer.clone(), workspace, marks };
    let mut asking = State { words: l.session.clone(), lent };
    let answer = asked(SALVAGE, l.copy.len() as u64, &mut asking);
    let (copy, report) = asking.lent.workspace.split_at(l.copy.len());
    assert!(asking.words == l.session && copy == l.copy, "a word of the session or of the copy was changed");
    l.report.copy_from_slice(report);
    for (figure, eight) in l.told.iter_mut().zip(asking.lent.marks.chunks_exact(8)) {
        *figure = u64::from_le_bytes(eight.try_into().expect("eight bytes"));
    }
    (l.fresh, l.buffer) = (asking.lent.file, asking.lent.buffer);
    answer
}

/// A call of the register. A spelling travels as the marks, four bytes a word.
pub fn register(deed: &Deed, s: &mut State) -> u64 {
    let kind = match deed {
        Deed::Enter => ENTER,
        Deed::Ask => ASK,
        Deed::Hold => HOLD,
        Deed::Free => FREE,
        Deed::Romanise(spelling) => return romanise(spelling, s),
    };
    asked(kind, 0, s)
}

fn romanise(spelling: &[u32], s: &mut State) -> u64 {
    let marks = std::mem::replace(&mut s.lent.marks, bytes(spelling));
    let answer = asked(ROMANISE, 0, s);
    assert!(s.lent.marks == bytes(spelling), "the spelling was changed");
    s.lent.marks = marks;
    answer
}
