//! PUT and GET: the archive compared with the rendering, on lists put and read back, on words made up, and on the stored cases.
use crate::archive;
use crate::both::Differs;
use crate::random::Random;
use nasturakh_tests::rules::{sequential, DONE, END_REACHED};
use std::collections::BTreeMap;

/// How often each number was answered.
pub type Tally = BTreeMap<(&'static str, u32), u64>;

/// All that PUT and GET are lent.
#[derive(Clone, Debug, PartialEq)]
struct Lent {
    row: Vec<u32>,
    file: Vec<u32>,
    workspace: Vec<u32>,
}

const PUT: &str = "Put";
const GET: &str = "Get";

/// Makes the call both ways; what is lent is then what both left.
fn call(kind: &'static str, lent: &mut Lent, tally: &mut Tally) -> Result<u32, Differs> {
    let before = lent.clone();
    let mut proved = lent.clone();
    let (answer, number) = if kind == PUT {
        let answer = archive::put(&mut proved.row, &mut proved.file, &mut proved.workspace);
        (answer, sequential::put(&mut lent.row, &mut lent.file, &lent.workspace))
    } else {
        let answer = archive::get(&mut proved.row, &mut proved.file, &mut proved.workspace);
        (answer, sequential::get(&mut lent.row, &lent.file, &mut lent.workspace))
    };
    *tally.entry((kind, number)).or_default() += 1;
    if answer == u64::from(number) && proved == *lent {
        return Ok(number);
    }
    Err(format!("{kind}, before {before:?}\narchive {answer:06o} {proved:?}\nrendering {number:06o} {lent:?}\n"))
}

/// A row at the first place, in range, with small blocks more often than not.
fn row(r: &mut Random) -> Vec<u32> {
    let wpb = if r.once_in(40) { r.one_of(&[64, 66, 4094, 4096]) } else { 2 * r.between(3, 8) };
    let leaders = r.between(0, 63.min(wpb - 1));
    let kind = r.between(0, 1);
    let wpr = r.between(1, (wpb - leaders).min(9));
    vec![wpb, leaders, kind, wpr, 0, 0, 0]
}

fn workspace_words(row: &[u32]) -> usize {
    if row[2] == 0 {
        row[3] as usize
    } else {
        (row[0] - row[1]) as usize
    }
}

/// Records put until there is no block left or they are enough; then all read back, and the end met.
pub fn list(r: &mut Random, tally: &mut Tally) -> Result<(), Differs> {
    let row = row(r);
    let blocks = r.below(6);
    let file = (0..blocks * row[0] as usize).map(|_| r.between(0, 5)).collect();
    let mut lent = Lent { workspace: vec![0; workspace_words(&row)], row, file };
    let mut put = Vec::new();
    for _ in 0..r.below(40) {
        lent.workspace.iter_mut().for_each(|word| *word = if r.once_in(9) { r.next() as u32 } else { r.between(0, 3) });
        if lent.row[2] == 1 {
            let most = lent.workspace.len() as u32;
            lent.workspace[0] = if r.once_in(12) { r.one_of(&[0, most + 1, u32::MAX]) } else { r.between(1, most.min(9)) };
        }
        if call(PUT, &mut lent, tally)? == DONE {
            let words = if lent.row[2] == 0 { lent.row[3] } else { lent.workspace[0] };
            put.push(lent.workspace[..words as usize].to_vec());
        }
    }
    lent.row[4..].copy_from_slice(&[0, 0, put.len() as u32]);
    for record in put {
        let number = call(GET, &mut lent, tally)?;
        if number != DONE || lent.workspace[..record.len()] != record {
            return Err(format!("GET {number:06o} read {:?} for {record:?}", lent.workspace));
        }
    }
    match call(GET, &mut lent, tally)? {
        END_REACHED => Ok(()),
        number => Err(format!("GET behind the last one: {number:06o}")),
    }
}

/// Words made up, and lengths now and then wrong.
pub fn made_up(r: &mut Random, tally: &mut Tally) -> Result<(), Differs> {
    let mut row = row(r);
    row[4] = if r.once_in(20) { u32::MAX } else { r.between(0, 3) };
    row[5] = if r.once_in(20) { r.one_of(&[u32::MAX, u32::MAX - 1]) } else { r.between(0, row[0]) };
    row[6] = r.one_of(&[0, 1, 2, u32::MAX]);
    let mut file: Vec<u32> = (0..r.below(4) * row[0] as usize).map(|_| r.one_of(&[0, 1, 1, 2, 3, 5, u32::MAX])).collect();
    let mut workspace: Vec<u32> = (0..workspace_words(&row)).map(|_| r.one_of(&[0, 1, 2, 2, 3, u32::MAX])).collect();
    match r.below(16) {
        0 => row[r.below(4)] = r.one_of(&[0, 1, 2, 5, 62, 63, 64, 4097, 4098, u32::MAX]),
        1 => row.truncate(r.below(7)),
        2 => row.push(0),
        3 => file.push(0),
        4 => workspace.push(1),
        5 => workspace.truncate(1),
        6 if row[2] == 0 => {
            row[3] = r.one_of(&[0, row[0] - row[1] + 1]);
            workspace.resize(row[3] as usize, 7);
        }
        _ => {}
    }
    let lent = Lent { row, file, workspace };
    call(PUT, &mut lent.clone(), tally)?;
    call(GET, &mut lent.clone(), tally).map(|_| ())
}

/// A stored case: kind, WPR, place and what is left; file; workspace; then the number, the place, and what is written.
struct Case {
    call: &'static str,
    row: [u32; 5],
    file: &'static [u32],
    workspace: &'static [u32],
    answer: (u32, u32, u32),
    wrote: &'static [u32],
}

#[rustfmt::skip]
const CASES: [Case; 25] = [
    Case { call: PUT, row: [1, 0, 0, 0, 0], file: &[9; 12], workspace: &[2, 7, 9, 9, 9], answer: (0, 0, 2), wrote: &[9, 2, 7, 0, 9, 9, 9, 9, 9, 9, 9, 9] },
    Case { call: PUT, row: [1, 0, 0, 2, 0], file: &[9, 2, 7, 0, 9, 9], workspace: &[0, 1, 1, 1, 1], answer: (0o020012, 0, 2), wrote: &[9, 2, 7, 0, 9, 9] },
    Case { call: PUT, row: [1, 0, 0, 2, 0], file: &[9, 2, 7, 0, 9, 9], workspace: &[6, 1, 1, 1, 1], answer: (0o020012, 0, 2), wrote: &[9, 2, 7, 0, 9, 9] },
    Case { call: PUT, row: [1, 0, 0, 2, 0], file: &[9, 2, 7, 0, 9, 9], workspace: &[2, 0, 9, 9, 9], answer: (0, 0, 4), wrote: &[9, 2, 7, 2, 0, 0] },
    Case { call: PUT, row: [1, 0, 0, 4, 0], file: &[9, 2, 7, 2, 0, 0], workspace: &[1, 9, 9, 9, 9], answer: (0, 0, 5), wrote: &[9, 2, 7, 2, 0, 1] },
    Case { call: PUT, row: [1, 0, 0, 9, 0], file: &[9; 12], workspace: &[1, 1, 1, 1, 1], answer: (0, 1, 1), wrote: &[9, 9, 9, 9, 9, 9, 9, 1, 0, 9, 9, 9] },
    Case { call: PUT, row: [1, 0, 2, 0, 0], file: &[9; 12], workspace: &[1, 1, 1, 1, 1], answer: (0o070002, 2, 0), wrote: &[9; 12] },
    Case { call: PUT, row: [0, 6, 9, 0, 0], file: &[9; 12], workspace: &[1; 6], answer: (0o020012, 9, 0), wrote: &[9; 12] },
    Case { call: PUT, row: [0, 2, 1, 4, 0], file: &[9; 12], workspace: &[3, 3], answer: (0o070002, 1, 4), wrote: &[9; 12] },
    Case { call: GET, row: [1, 0, 0, 0, 1], file: &[9, 0, 1, 1, 1, 1, 9, 1, 1, 1, 1, 1], workspace: &[8; 5], answer: (0o020012, 0, 0), wrote: &[8; 5] },
    Case { call: GET, row: [1, 0, 0, 0, 1], file: &[9, 6, 1, 1, 1, 1, 9, 1, 1, 1, 1, 1], workspace: &[8; 5], answer: (0o020012, 0, 0), wrote: &[8; 5] },
    Case { call: GET, row: [1, 0, 0, 3, 1], file: &[9, 3, 1, 1, 3, 1, 9, 1, 1, 1, 1, 1], workspace: &[8; 5], answer: (0o020012, 0, 3), wrote: &[8; 5] },
    Case { call: GET, row: [1, 0, 0, 3, 1], file: &[9, 3, 1, 1, 0, 1, 9, 2, 7, 1, 1, 1], workspace: &[8; 5], answer: (0, 1, 2), wrote: &[2, 7, 8, 8, 8] },
    Case { call: GET, row: [1, 0, 0, 7, 1], file: &[9, 3, 1, 1, 0, 1, 9, 2, 7, 1, 1, 1], workspace: &[8; 5], answer: (0, 1, 2), wrote: &[2, 7, 8, 8, 8] },
    Case { call: GET, row: [1, 0, 1, 5, 1], file: &[1; 12], workspace: &[8; 5], answer: (0o030002, 1, 5), wrote: &[8; 5] },
    Case { call: GET, row: [1, 0, 0, 0, 0], file: &[9, 0, 1, 1, 1, 1, 9, 1, 1, 1, 1, 1], workspace: &[8; 5], answer: (0o030002, 0, 0), wrote: &[8; 5] },
    Case { call: GET, row: [0, 6, 0, 0, 0], file: &[9; 12], workspace: &[8; 6], answer: (0o020012, 0, 0), wrote: &[8; 6] },
    Case { call: GET, row: [0, 2, 0, 3, 1], file: &[9, 1, 2, 3, 4, 5], workspace: &[8; 2], answer: (0, 0, 5), wrote: &[4, 5] },
    Case { call: GET, row: [1, 0, 0, 0, 1], file: &[1; 7], workspace: &[8; 5], answer: (0o020007, 0, 0), wrote: &[8; 5] },
    Case { call: GET, row: [1, 0, 0, 0, 1], file: &[1; 12], workspace: &[8; 4], answer: (0o020007, 0, 0), wrote: &[8; 4] },
    Case { call: GET, row: [1, 0, 2, 0, 1], file: &[1; 12], workspace: &[8; 5], answer: (0o030002, 2, 0), wrote: &[8; 5] },
    Case { call: GET, row: [0, 0, 0, 0, 1], file: &[9; 12], workspace: &[], answer: (0o020012, 0, 0), wrote: &[] },
    Case { call: GET, row: [0, 2, 0, 4, 1], file: &[9, 1, 2, 3, 4, 5], workspace: &[8; 2], answer: (0o030002, 0, 4), wrote: &[8; 2] },
    Case { call: GET, row: [0, 2, 0, 0, 1], file: &[], workspace: &[8; 2], answer: (0o030002, 0, 0), wrote: &[8; 2] },
    Case { call: PUT, row: [1, 0, 0, 0, 0], file: &[9; 6], workspace: &[5, 1, 1, 1, u32::MAX], answer: (0, 0, 5), wrote: &[9, 5, 1, 1, 1, u32::MAX] },
];

/// The stored cases: blocks of six words, one of them a leader word. What they answer was fixed before there was any code.
pub fn stored(tally: &mut Tally) -> Result<(), Differs> {
    for case in &CASES {
        let [kind, wpr, block, at, left] = case.row;
        let row = vec![6, 1, kind, wpr, block, at, left];
        let mut lent = Lent { row, file: case.file.to_vec(), workspace: case.workspace.to_vec() };
        let number = call(case.call, &mut lent, tally)?;
        let written = if case.call == PUT { &lent.file } else { &lent.workspace };
        if (number, lent.row[4], lent.row[5]) != case.answer || written != case.wrote {
            return Err(format!("a stored case of {} was answered {number:06o} with {lent:?}", case.call));
        }
    }
    Ok(())
}
