//! Copies of which the words are known: the file of the fifteen calls, one whose master is made even, and one of 4,200 sections.
use crate::both::{self, Differs, Tally};
use crate::copies::{copy, length};
use crate::state::State;
use nasturakh_tests::rules::{Description, Kind, DONE};

/// The call on a state that only the rendering has changed: what it answers, number and transfers.
fn plain(kind: Kind, state: &mut State, work: &[u32]) -> (u32, usize) {
    state.lent.workspace[..work.len()].copy_from_slice(work);
    let answer = state.call(kind);
    (answer.number, answer.moves.len())
}

/// A copy into a second file of nines; its number, its words and the marks that it leaves.
fn copied(state: &State, control: usize, tally: &mut Tally) -> Result<(u32, Vec<u32>, Vec<u8>), Differs> {
    let mut marked = state.clone();
    let (number, second) = copy(state, &vec![9; length(state.description(), control)], control, tally)?;
    marked.copy(&mut second.clone(), control);
    Ok((number, second, marked.lent.marks))
}

pub fn expect<T: PartialEq + std::fmt::Debug>(what: &str, found: T, wanted: T) -> Result<(), Differs> {
    if found == wanted {
        return Ok(());
    }
    Err(format!("{what}: {found:?}, and not {wanted:?}"))
}

/// The file of the printed session's fifteen calls, copied to CONTROL 5.
fn fifteen(tally: &mut Tally) -> Result<(), Differs> {
    let mut state = State::new(Description { wpb: 8, wpr: 3, k: 1, space: 0, control: 2, n: 4, form: 1 });
    let records = [[10, 1, 2], [20, 3, 4], [5, 7, 7], [15, 6, 6], [12, 0, 0]];
    plain(Kind::Create, &mut state, &[]);
    plain(Kind::Open, &mut state, &[]);
    for record in records {
        plain(Kind::Nsert, &mut state, &record);
    }
    plain(Kind::Dlete, &mut state, &[5]);
    plain(Kind::Dlete, &mut state, &[10]);
    plain(Kind::Xtend, &mut state, &[30, 8, 9]);
    plain(Kind::Close, &mut state, &[]);
    let blocks = [[2, 20, 4, 262143, 3, 0, 0, 0], [0; 8], [2, 30, 8, 9, 262143, 0, 0, 0], [2, 15, 6, 6, 20, 3, 4, 0]];
    let words: Vec<u32> = [1, 2, 5, 262143, 1, 0, 0, 0, 0, 0, 0, 0, 0, 0].into_iter().chain(blocks.into_iter().flatten()).collect();
    expect("the fifteen calls copied to 5", copied(&state, 5, tally)?, (0, words, vec![1, 2, 1, 1]))?;
    for control in [0, 16384] {
        expect("out of range", copied(&state, control, tally)?.0, 0o020007)?;
    }
    Ok(())
}

/// A master of 6 words becomes one of 10.
fn even(tally: &mut Tally) -> Result<(), Differs> {
    let mut state = State::new(Description { wpb: 8, wpr: 2, k: 2, space: 0, control: 1, n: 3, form: 1 });
    plain(Kind::Create, &mut state, &[]);
    plain(Kind::Open, &mut state, &[]);
    expect("NSERT", plain(Kind::Nsert, &mut state, &[3, 4]), (0, 2))?;
    expect("CLOSE", plain(Kind::Close, &mut state, &[]), (0, 1))?;
    let blocks = [[1, 262143, 262143, 2, 0, 0, 0, 0], [2, 3, 4, 262143, 262143, 0, 0, 0], [0; 8]];
    let words: Vec<u32> = [1, 0, 3, 262143, 262143, 1, 0, 0, 0, 0].into_iter().chain(blocks.into_iter().flatten()).collect();
    expect("copied to 2", copied(&state, 2, tally)?, (0, words, vec![1, 1, 0]))
}

/// 4,200 sections made by XTEND, copied to 16383; the copy opened, and the last key found there.
fn many(tally: &mut Tally) -> Result<(), Differs> {
    let mut state = State::new(Description { wpb: 6, wpr: 1, k: 1, space: 0, control: 5000, n: 20000, form: 1 });
    plain(Kind::Create, &mut state, &[]);
    plain(Kind::Open, &mut state, &[]);
    let transfers: usize = (1..=41990).map(|key| plain(Kind::Xtend, &mut state, &[key]).1).sum();
    expect("transfers and sections", (transfers, state.lent.file[0]), (46191, 4200))?;
    plain(Kind::Close, &mut state, &[]);
    expect("4095 is below the sections", copy(&state, &vec![9; 128194], 4095, tally)?.0, 0o020007)?;
    let (number, second) = copy(&state, &vec![9; 152770], 16383, tally)?;
    expect("copied to 16383", number, DONE)?;
    state.words[4] = 16383;
    state.lent.file = second;
    expect("OPEN of the copy", both::call(Kind::Open, &mut state, tally)?.number, DONE)?;
    state.lent.workspace[0] = 41990;
    expect("SEEK of the last key", both::call(Kind::Seek, &mut state, tally)?.number, DONE)
}

/// Three files with what is known of their copies, word by word.
pub fn compare(tally: &mut Tally) -> Result<(), Differs> {
    fifteen(tally)?;
    even(tally)?;
    many(tally)
}
