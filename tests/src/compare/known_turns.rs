//! Turns of which the words are known: the file of the fifteen calls from the second form to the first, and one with two free blocks the other
//! way. And three wrong kinds of which the answer is known.
use crate::both::{self, Differs, Tally};
use crate::known::expect;
use crate::state::{State, FORM};
use crate::turns::turn;
use nasturakh_tests::rules::{Description, Kind};

/// A call, the words put into the workspace first, and the number and transfers that it is to answer.
type Line = (Kind, &'static [u32], u32, usize);

const FIFTEEN: [Line; 15] = [
    (Kind::Create, &[], 0, 0),
    (Kind::Open, &[], 0, 0),
    (Kind::Nsert, &[10, 1, 2], 0, 2),
    (Kind::Nsert, &[20, 3, 4], 0, 7),
    (Kind::Nsert, &[5, 7, 7], 0o070001, 6),
    (Kind::Nsert, &[15, 6, 6], 0o070001, 2),
    (Kind::Nsert, &[12, 0, 0], 0o070002, 3),
    (Kind::Dlete, &[5], 0, 2),
    (Kind::Dlete, &[10], 0, 3),
    (Kind::Xtend, &[30, 8, 9], 0, 3),
    (Kind::Xtend, &[25, 0, 0], 5, 0),
    (Kind::Seek, &[20], 0, 3),
    (Kind::Adv, &[], 0, 3),
    (Kind::Adv, &[], 0o030002, 0),
    (Kind::Close, &[], 0, 0),
];

const EMPTIED: [Line; 11] = [
    (Kind::Create, &[], 0, 0),
    (Kind::Open, &[], 0, 0),
    (Kind::Nsert, &[10, 0, 0], 0, 2),
    (Kind::Nsert, &[20, 0, 0], 0, 7),
    (Kind::Nsert, &[5, 0, 0], 0o070001, 6),
    (Kind::Nsert, &[6, 0, 0], 0o070002, 2),
    (Kind::Dlete, &[5], 0, 0),
    (Kind::Dlete, &[6], 1, 3),
    (Kind::Dlete, &[10], 0, 3),
    (Kind::Dlete, &[20], 0, 5),
    (Kind::Close, &[], 0, 0),
];

/// Both files have four blocks of eight words behind a master of eight.
type File = [[u32; 8]; 5];

/// The calls in this form; the file then, and what a turn makes of it with these marks; turned back it is the file again.
fn play(lines: &[Line], form: u32, file: File, turned: File, marks: [u8; 4], tally: &mut Tally) -> Result<(), Differs> {
    let mut state = State::new(Description { wpb: 8, wpr: 3, k: 1, space: 0, control: 2, n: 4, form }).with_form();
    for (kind, work, number, transfers) in lines {
        state.lent.workspace[..work.len()].copy_from_slice(work);
        let answer = both::call(*kind, &mut state, tally)?;
        expect(&format!("{kind:?} {work:?}"), (answer.number, answer.moves.len()), (*number, *transfers))?;
    }
    expect("the file", state.lent.file.as_slice(), file.as_flattened())?;
    expect("TURN", turn(&mut state, tally)?, 0)?;
    expect("the file turned", (state.lent.file.as_slice(), state.words[FORM]), (turned.as_flattened(), 3 - form))?;
    expect("the marks", state.lent.marks.as_slice(), &marks)?;
    expect("TURN back", turn(&mut state, tally)?, 0)?;
    expect("the file turned back", (state.lent.file.as_slice(), state.words[FORM]), (file.as_flattened(), form))
}

/// After CREATE in the second form word 0 of a block is another's; the number that the call then answers.
fn spoilt(block: u32, word: u32, calls: &[(Kind, &[u32])], number: u32, tally: &mut Tally) -> Result<(), Differs> {
    let p = Description { wpb: 8, wpr: 3, k: 1, space: 0, control: 2, n: 4, form: 2 };
    let mut state = State::new(p);
    both::call(Kind::Create, &mut state, tally)?;
    let at = p.start(block);
    let mut last = 0;
    for (j, (kind, work)) in calls.iter().enumerate() {
        if j + 1 == calls.len() {
            state.lent.file[at] = word;
        }
        state.lent.workspace[..work.len()].copy_from_slice(work);
        last = both::call(*kind, &mut state, tally)?.number;
    }
    expect(&format!("block {block} says {word}"), last, number)
}

/// A detail block that says index: OPEN and a lookup refuse it. A block never used that says detail: an NSERT that takes it does not look.
fn wrong_kinds(tally: &mut Tally) -> Result<(), Differs> {
    spoilt(2, 4097, &[(Kind::Open, &[])], 0o070003, tally)?;
    spoilt(2, 4097, &[(Kind::Open, &[]), (Kind::Seek, &[5])], 0o070003, tally)?;
    spoilt(3, 8193, &[(Kind::Open, &[]), (Kind::Nsert, &[10, 1, 2]), (Kind::Nsert, &[20, 3, 4])], 0, tally)
}

pub fn compare(tally: &mut Tally) -> Result<(), Differs> {
    wrong_kinds(tally)?;
    let master = [1, 2, 5, 262143, 1, 0, 0, 0];
    let first = [master, [2, 20, 4, 262143, 3, 0, 0, 0], [0; 8], [2, 30, 8, 9, 262143, 0, 0, 0], [2, 15, 6, 6, 20, 3, 4, 0]];
    let free = [12288, 0, 0, 0, 0, 0, 0, 0];
    let second = [master, [4098, 20, 4, 262143, 3, 0, 0, 0], free, [8194, 30, 8, 9, 262143, 0, 0, 0], [8194, 15, 6, 6, 20, 3, 4, 0]];
    play(&FIFTEEN, 2, second, first, [1, 2, 1, 1], tally)?;
    let master = [1, 4, 5, 262143, 1, 0, 0, 0];
    let first = [master, [1, 262143, 3, 0, 0, 0, 0, 0], [0; 8], [1, 262143, 0, 0, 0, 0, 0, 0], [2, 0, 0, 0, 0, 0, 0, 0]];
    let linked = [12288, 2, 0, 0, 0, 0, 0, 0];
    let second = [master, [4097, 262143, 3, 0, 0, 0, 0, 0], free, [8193, 262143, 0, 0, 0, 0, 0, 0], linked];
    play(&EMPTIED, 1, first, second, [1, 2, 1, 2], tally)
}
