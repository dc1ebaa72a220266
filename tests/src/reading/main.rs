//! Compares the reading set's archive with the rendering, word by word: lists that the rendering fills, finished and not, and words made up.
#[allow(dead_code)]
#[path = "../compare/random.rs"]
mod random;

use nasturakh_tests::rules::{Answer, Description, Kind, Lent, Part, Session, DONE, ONES, WRONG_SIZE};
use random::Random;
use std::collections::BTreeMap;

type OnRecords = unsafe extern "C" fn(*mut u32, usize, *const u32, usize, *mut u32, usize, *mut u32, usize) -> u64;

#[rustfmt::skip]
extern "C" {
    fn nasturakh_reading_open(s: *mut u32, n: usize, file: *const u32, size: usize, buffer: *const u32, words: usize, marks: *mut u8, bytes: usize) -> u64;
    fn nasturakh_reading_close(s: *mut u32, n: usize, file: *const u32, size: usize, buffer: *const u32, words: usize) -> u64;
    fn nasturakh_reading_view(s: *const u32, n: usize, file: *const u32, size: usize, buffer: *const u32, words: usize, block: usize) -> u64;
    fn nasturakh_reading_seek(s: *mut u32, n: usize, file: *const u32, size: usize, buffer: *mut u32, words: usize, work: *mut u32, wpr: usize) -> u64;
    fn nasturakh_reading_adv(s: *mut u32, n: usize, file: *const u32, size: usize, buffer: *mut u32, words: usize, work: *mut u32, wpr: usize) -> u64;
    fn nasturakh_reading_nsert(s: *mut u32, n: usize, file: *const u32, size: usize, buffer: *mut u32, words: usize, work: *mut u32, wpr: usize) -> u64;
    fn nasturakh_reading_dlete(s: *mut u32, n: usize, file: *const u32, size: usize, buffer: *mut u32, words: usize, work: *mut u32, wpr: usize) -> u64;
    fn nasturakh_reading_updat(s: *mut u32, n: usize, file: *const u32, size: usize, buffer: *mut u32, words: usize, work: *mut u32, wpr: usize) -> u64;
    fn nasturakh_reading_xtend(s: *mut u32, n: usize, file: *const u32, size: usize, buffer: *mut u32, words: usize, work: *mut u32, wpr: usize) -> u64;
}

/// The words of a session, and what is lent.
#[derive(Clone, Debug, PartialEq, Eq)]
struct State {
    words: Vec<u32>,
    lent: Lent,
}

impl State {
    fn of(p: Description, file: Vec<u32>, form_word: bool) -> State {
        let lent = Lent { file, buffer: vec![0; p.wpb()], workspace: vec![0; p.wpr()], marks: vec![9; p.n as usize] };
        let mut words = vec![p.wpb, p.wpr, p.k, p.space, p.control, p.n];
        words.resize(73, 0);
        words.extend(form_word.then_some(p.form));
        State { words, lent }
    }

    fn session(&self) -> Option<Session> {
        let w = &self.words;
        if !matches!(w.len(), 73 | 74) || [6, 8, 9].iter().any(|&j| w[j] > 1) {
            return None;
        }
        let p = Description { form: w.get(73).copied().unwrap_or(1), ..Description::from_words(w) };
        let position = w[10..73].try_into().expect("63 words");
        Some(Session { p, open: w[6] == 1, current: w[7], flag: w[8] == 1, given: w[9] == 1, position })
    }

    /// The rendering's answer, and what it leaves.
    fn render(&mut self, kind: Kind) -> Answer {
        let Some(mut s) = self.session() else { return Answer::refused(WRONG_SIZE) };
        let answer = s.read(kind, &mut self.lent);
        self.words[6] = s.open as u32;
        self.words[7] = s.current;
        self.words[8] = s.flag as u32;
        self.words[9] = s.given as u32;
        self.words[10..73].copy_from_slice(&s.position);
        answer
    }

    /// The archive's answer, and what it leaves.
    fn ask(&mut self, kind: Kind) -> u64 {
        let (w, l) = (&mut self.words, &mut self.lent);
        let f: OnRecords = match kind {
            // SAFETY: each pointer and length is that of a slice lent for the call, and no two overlap.
            Kind::Create | Kind::Open => unsafe {
                let (file, buffer, marks) = (l.file.as_ptr(), l.buffer.as_ptr(), l.marks.as_mut_ptr());
                return nasturakh_reading_open(w.as_mut_ptr(), w.len(), file, l.file.len(), buffer, l.buffer.len(), marks, l.marks.len());
            },
            // SAFETY: as above.
            Kind::Close => unsafe {
                return nasturakh_reading_close(w.as_mut_ptr(), w.len(), l.file.as_ptr(), l.file.len(), l.buffer.as_ptr(), l.buffer.len());
            },
            Kind::Seek => nasturakh_reading_seek,
            Kind::Adv => nasturakh_reading_adv,
            Kind::Nsert => nasturakh_reading_nsert,
            Kind::Dlete => nasturakh_reading_dlete,
            Kind::Updat => nasturakh_reading_updat,
            Kind::Xtend => nasturakh_reading_xtend,
        };
        let (file, buffer, work) = (l.file.as_ptr(), l.buffer.as_mut_ptr(), l.workspace.as_mut_ptr());
        // SAFETY: as above.
        unsafe { f(w.as_mut_ptr(), w.len(), file, l.file.len(), buffer, l.buffer.len(), work, l.workspace.len()) }
    }

    fn view(&self, block: usize) -> (u64, u64) {
        let (w, l) = (&self.words, &self.lent);
        // SAFETY: as above; VIEW changes nothing.
        let proved = unsafe { nasturakh_reading_view(w.as_ptr(), w.len(), l.file.as_ptr(), l.file.len(), l.buffer.as_ptr(), l.buffer.len(), block) };
        let plain = match self.session().filter(|s| !s.flag).map(|s| s.read_view(l, block)) {
            None => WRONG_SIZE as u64,
            Some(Part::Empty) => 0,
            Some(Part::File(place)) => (1 << 32) + place as u64,
            Some(Part::Buffer) => 1 << 33,
        };
        (proved, plain)
    }
}

type Tally = BTreeMap<(Kind, u32, usize), u64>;

/// One call made both ways; the state is then what both left.
fn call(kind: Kind, state: &mut State, tally: &mut Tally) -> Result<u32, String> {
    let (before, mut proved) = (state.clone(), state.clone());
    let packed = proved.ask(kind);
    let answer = state.render(kind);
    let expected = ((answer.moves.len() as u64) << 32) + answer.number as u64;
    if packed != expected || proved != *state || proved.lent.file != before.lent.file {
        return Err(format!("{kind:?}\n{before:?}\narchive {packed:o}\n{proved:?}\nrendering {:06o} {:?}\n{state:?}", answer.number, answer.moves));
    }
    *tally.entry((kind, answer.number, answer.moves.len())).or_default() += 1;
    Ok(answer.number)
}

fn parameters(r: &mut Random) -> Description {
    loop {
        let k = r.between(1, 2);
        let control = if r.once_in(12) { 2 } else { 1 };
        let (wpb, wpr, n) = (2 * r.between(3, 12), k + r.between(0, 2), r.between(2, 16));
        let p = Description { wpb, wpr, k, space: r.one_of(&[0, 0, 1, 2]), control, n, form: r.between(1, 2) };
        if p.in_range() {
            return p;
        }
    }
}

/// A file that the rendering fills: by XTEND alone, or with some records put in and taken out.
fn filled(p: Description, mixed: bool, r: &mut Random) -> Vec<u32> {
    let mut l = Lent { file: vec![0; p.file_size()], buffer: vec![0; p.wpb()], workspace: vec![0; p.wpr()], marks: vec![0; p.n as usize] };
    let mut s = Session::new(p);
    for kind in [Kind::Create, Kind::Open] {
        s.call(kind, &mut l);
    }
    for j in 0..r.between(0, 40) {
        l.workspace.fill(j % 5);
        l.workspace[p.k() - 1] = if mixed { r.between(0, 60) } else { 2 * j };
        let kind = if mixed { r.one_of(&[Kind::Xtend, Kind::Xtend, Kind::Nsert, Kind::Dlete]) } else { Kind::Xtend };
        s.call(kind, &mut l);
    }
    s.call(Kind::Close, &mut l);
    l.file
}

/// Now and then something is made wrong: a word of the file, the session, the buffer, or a length.
fn spoil(p: &Description, state: &mut State, r: &mut Random) {
    let word = r.one_of(&[0, 1, 2, 3, p.n, p.n + 1, ONES, ONES + 1, 4097, 8193, 12288]);
    match r.below(9) {
        0 | 1 => {
            let j = r.below(state.lent.file.len());
            state.lent.file[j] = word;
        }
        2 => state.lent.buffer[0] = word,
        3 => state.words[7] = r.between(0, p.n + 1),
        4 => state.words[6] ^= 1,
        5 => state.words[9] = r.between(0, 1),
        6 => state.words[r.one_of(&[3, 4, 8, 10])] = r.between(0, 2),
        7 => drop(state.lent.workspace.pop()),
        _ => drop(state.lent.buffer.pop()),
    }
}

/// One list: opened, read through, altered in vain, closed and opened again, and now and then spoilt.
fn list(r: &mut Random, tally: &mut Tally) -> Result<(), String> {
    let p = parameters(r);
    let mixed = r.once_in(2);
    let file = filled(p, mixed, r);
    let mut state = State::of(p, file, p.form != 1 || r.once_in(2));
    let number = call(Kind::Open, &mut state, tally)?;
    if !mixed && p.control == 1 && number != DONE {
        return Err(format!("a list that XTEND filled does not open: {number:06o} {state:?}"));
    }
    for _ in 0..60 {
        let kind = r.one_of(&[Kind::Seek, Kind::Seek, Kind::Adv, Kind::Adv, Kind::Adv, Kind::Nsert, Kind::Dlete, Kind::Updat, Kind::Xtend, Kind::Open]);
        let kind = if r.once_in(25) { Kind::Close } else { kind };
        if let Some(last) = state.lent.workspace.get_mut(p.k() - 1) {
            *last = r.between(0, 80);
        }
        let sound = state.clone();
        if r.once_in(3) {
            spoil(&p, &mut state, r);
        }
        call(kind, &mut state, tally)?;
        let block = r.below(p.n as usize + 2);
        let (proved, plain) = state.view(block);
        if proved != plain {
            return Err(format!("VIEW of block {block}: archive {proved}, rendering {plain}: {state:?}"));
        }
        if r.once_in(2) {
            state = sound;
        }
        if state.words[6] == 0 && r.once_in(2) {
            call(Kind::Open, &mut state, tally)?;
        }
    }
    Ok(())
}

fn main() {
    let rounds: u64 = std::env::args().nth(1).map_or(2000, |text| text.parse().expect("the argument is the number of rounds"));
    let mut tally = Tally::new();
    for seed in 0..rounds {
        if let Err(differs) = list(&mut Random::new(seed), &mut tally) {
            println!("DIFFERENT\nseed {seed}: {differs}");
            std::process::exit(1);
        }
    }
    for ((kind, number, moves), times) in &tally {
        println!("{kind:?} {number:06o} with {moves} transfers: {times}");
    }
    println!("{} reading calls, no difference", tally.values().sum::<u64>());
}
