//! Salvage: the archive compared with the rendering, on files of sessions, damaged, and on words made up, and on the stored runs.
use crate::archive;
use crate::both::Differs;
use crate::loose;
use crate::random::Random;
use crate::spoil::spoil;
use crate::state::{described, is_session, State};
use nasturakh_tests::rules::{salvage, Description, ONES, WRONG_SIZE};
use std::collections::BTreeMap;

/// How often each number was answered, and each reason given.
pub type Tally = BTreeMap<(&'static str, u32), u64>;

/// What is lent to the call.
#[derive(Clone, Debug, PartialEq, Eq)]
pub struct Lending {
    pub session: Vec<u32>,
    pub copy: Vec<u32>,
    pub fresh: Vec<u32>,
    pub buffer: Vec<u32>,
    pub report: Vec<u32>,
    pub told: Vec<u64>,
}

impl Lending {
    fn new(p: &Description, copy: Vec<u32>) -> Lending {
        let report = vec![77; 3 * p.n as usize * (1 + p.d())];
        Lending { session: State::new(*p).words, copy, fresh: vec![5; p.file_size()], buffer: vec![6; p.wpb()], report, told: vec![9; 2] }
    }

    /// The rendering's number, and what it leaves.
    fn salvage(&mut self) -> u32 {
        if !is_session(&self.session) || self.told.len() != 2 {
            return WRONG_SIZE;
        }
        let done = salvage(&described(&self.session), &self.copy, &mut self.fresh, &mut self.buffer, &mut self.report);
        self.told = vec![done.transfers as u64, done.lines.len() as u64];
        done.number
    }
}

/// Made both ways; answers the number. What is lent is then what both left.
fn both(lending: &mut Lending, tally: &mut Tally) -> Result<u32, Differs> {
    let (before, mut proved) = (lending.clone(), lending.clone());
    let answer = archive::salvage(&mut proved);
    let number = lending.salvage();
    if answer != u64::from(number) || proved != *lending {
        return Err(format!("salvage {before:?}\narchive {answer:06o} {proved:?}\nrendering {number:06o} {lending:?}\n"));
    }
    *tally.entry(("number", number)).or_default() += 1;
    if number == 0 {
        for line in lending.report.chunks_exact(3).take(lending.told[1] as usize) {
            *tally.entry(("reason", line[2])).or_default() += 1;
        }
    }
    Ok(number)
}

/// The words of a file as a copy: in the first form most blocks get a mark, and in both some words are damaged.
fn marked(p: &Description, file: &[u32], r: &mut Random) -> Vec<u32> {
    let mut copy = file.to_vec();
    for b in 1..=p.n {
        let text = &mut copy[p.start(b)..p.start(b) + p.wpb()];
        if p.form == 1 && !r.once_in(6) {
            text[0] = text[0].wrapping_add(r.one_of(&[4096, 8192, 8192, 8192]));
        }
        if r.once_in(8) {
            let at = r.below(text.len());
            text[at] = r.one_of(&[0, 1, ONES, ONES + 1, 8192, 12287, 12288, u32::MAX]);
        }
    }
    copy
}

fn spoil_lent(lending: &mut Lending, r: &mut Random) {
    match r.below(8) {
        0 => lending.copy.push(0),
        1 => lending.fresh.truncate(lending.fresh.len() - 1),
        2 => lending.buffer.push(0),
        3 => lending.report.truncate(lending.report.len() - 1),
        4 => lending.told.push(1),
        5 => lending.session.truncate(72),
        6 => lending.session[r.below(6)] = r.between(0, 9),
        _ => lending.report.push(3),
    }
}

fn some(p: &Description, copy: Vec<u32>, r: &mut Random, tally: &mut Tally) -> Result<(), Differs> {
    let mut lending = Lending::new(p, copy);
    if r.once_in(8) {
        spoil_lent(&mut lending, r);
    }
    both(&mut lending, tally).map(|_| ())
}

/// The file that a session left, whole or damaged.
pub fn compare(kept: &State, r: &mut Random, tally: &mut Tally) -> Result<(), Differs> {
    let mut state = kept.clone();
    let p = state.description();
    if r.once_in(2) {
        spoil(&p, &mut state, r);
    }
    if state.lent.file.len() != p.file_size() {
        return Ok(());
    }
    let copy = marked(&p, &state.lent.file, r);
    some(&p, copy, r, tally)
}

/// Blocks named at random.
pub fn made_up(r: &mut Random, tally: &mut Tally) -> Result<(), Differs> {
    let (p, _, state) = loose::state(r);
    let copy = marked(&p, &state.lent.file, r);
    some(&p, copy, r, tally)
}

fn blocks(p: &Description, texts: &[&[u32]]) -> Vec<u32> {
    let mut copy = vec![0; p.file_size()];
    for (b, text) in (1..).zip(texts) {
        copy[p.start(b)..p.start(b) + text.len()].copy_from_slice(text);
    }
    copy
}

/// A stored run: parameters, the blocks of the copy, and what is to be told and reported.
fn expect(p: Description, texts: &[&[u32]], told: [u64; 2], lines: &[[u32; 3]], fresh: &[&[u32]]) -> Result<(), Differs> {
    let mut lending = Lending::new(&p, blocks(&p, texts));
    let number = both(&mut lending, &mut Tally::new())?;
    let found: Vec<u32> = lending.report[..3 * lines.len()].to_vec();
    let wanted = blocks(&p, fresh);
    let from = p.start(1);
    if number == 0 && lending.told == told && found == lines.concat() && lending.fresh[from..] == wanted[from..] {
        return Ok(());
    }
    Err(format!("the run of {p:?} {texts:?}: {number:06o} {lending:?}, and not {told:?} {lines:?} {wanted:?}"))
}

/// The runs that the note of the request gives.
pub fn stored() -> Result<(), Differs> {
    let p = Description { wpb: 8, wpr: 3, k: 1, space: 0, control: 1, n: 8, form: 1 };
    let damaged: [&[u32]; 8] = [
        &[4098, 10, 2, ONES, 3],
        &[8194, 5, 7, 7, 10, 1, 2],
        &[8193, ONES],
        &[8194, 20, 3, 4, 10, 9, 9],
        &[8194, 10, 8, 8, 30, 1, 1, 4000000],
        &[8195, 1, 1, 1, 2, 2, 2],
        &[8193, 7, 300000],
        &[12288, 3],
    ];
    let lines = [[1, 0, 1], [4, 0, 4], [5, 1, 5], [6, 0, 2], [7, 0, 3], [8, 0, 1]];
    expect(p, &damaged, [12, 6], &lines, &[&[2, 10, 2, ONES, 3], &[2, 5, 7, 7, 10, 1, 2], &[2, 30, 1, 1, ONES]])?;
    let second = Description { form: 2, ..p };
    expect(second, &damaged, [12, 6], &lines, &[&[4098, 10, 2, ONES, 3], &[8194, 5, 7, 7, 10, 1, 2], &[8194, 30, 1, 1, ONES]])?;
    let p = Description { wpb: 6, wpr: 2, k: 1, space: 0, control: 1, n: 3, form: 1 };
    let crowded: [&[u32]; 3] = [&[8194, 3, 0, 5, 0], &[8194, 1, 0, 4, 0], &[8194, 4, 9, ONES, 0]];
    expect(p, &crowded, [15, 3], &[[2, 1, 6], [2, 2, 6], [3, 1, 6]], &[&[2, 5, 2, ONES, 3], &[2, 3, 0, 5, 0], &[1, ONES]])?;
    let p = Description { wpb: 8, wpr: 2, k: 1, space: 0, control: 1, n: 4, form: 1 };
    let good: [&[u32]; 4] = [&[4099, 3, 2, 6, 3, ONES, 4], &[8195, 1, 0, 2, 0, 3, 0], &[8195, 4, 0, 5, 0, 6, 0], &[8195, 7, 0, 8, 0, ONES, 0]];
    let left: [&[u32]; 4] = [&[3, 2, 2, 4, 3, ONES, 4], &[2, 1, 0, 2, 0], &[2, 3, 0, 4, 0], &[3, 5, 0, 6, 0, ONES, 0]];
    expect(p, &good, [28, 3], &[[1, 0, 1], [4, 1, 6], [4, 2, 6]], &left)?;
    let wider = Description { control: 2, n: 6, ..p };
    let mut lending = Lending::new(&wider, blocks(&wider, &good));
    let number = both(&mut lending, &mut Tally::new())?;
    if number == 0 && lending.told == [34, 3] && lending.report[..9] == [1, 0, 1, 5, 0, 1, 6, 0, 1] {
        return Ok(());
    }
    Err(format!("the padded copy: {number:06o} {lending:?}"))
}
