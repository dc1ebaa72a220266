//! Trays: the archive compared with the rendering, on states of sessions, good and spoilt, on words made up, and on the stored runs.
use crate::archive;
use crate::both::{self, Differs};
use crate::keys::Keys;
use crate::loose;
use crate::random::Random;
use crate::spoil::{spoil, spoil_sizes};
use crate::state::State;
use nasturakh_tests::rules::{Description, Kind, ONES};
use std::collections::BTreeMap;

/// How often each number was answered.
pub type Tally = BTreeMap<u32, u64>;

/// A tray put in both ways; the state is then what both left. Answers how many were stored, the number and the transfers.
fn put_in(tray: &[u32], told: &[u64], state: &mut State, tally: &mut Tally) -> Result<(u64, u32, u64), Differs> {
    let before = state.clone();
    let mut proved = state.clone();
    let (mut one, mut other) = (told.to_vec(), told.to_vec());
    let answer = archive::tray(&mut proved, tray, &mut one);
    let number = state.tray(tray, &mut other);
    *tally.entry(number).or_default() += 1;
    if answer == u64::from(number) && proved == *state && one == other {
        return Ok((other.get(1).copied().unwrap_or(0), number, other.first().copied().unwrap_or(0)));
    }
    Err(format!(
        "tray {tray:?}, told {told:?}, before {before:?}\narchive {answer:06o} {one:?} {proved:?}\nrendering {number:06o} {other:?} {state:?}\n"
    ))
}

/// A few records, in any order, now and then what no record may be.
fn records(p: &Description, keys: &Keys, r: &mut Random) -> Vec<u32> {
    let count = if r.once_in(12) { 0 } else { r.between(1, 9) };
    let mut tray = vec![count];
    for _ in 0..count {
        tray.extend(keys.any(r));
        tray.extend((p.k()..p.wpr()).map(|_| r.between(0, 9)));
    }
    if count > 0 && r.once_in(8) {
        let at = 1 + r.below(tray.len() - 1);
        tray[at] = r.one_of(&[ONES, ONES + 1, u32::MAX]);
    }
    if r.once_in(40) {
        tray.extend(std::iter::repeat_n(ONES, p.wpr()));
        tray[0] += 1;
    }
    tray
}

/// A length that does not match the first word, or a first word that does not match the length.
fn mismatched(tray: &mut Vec<u32>, r: &mut Random) {
    match r.below(5) {
        0 => tray.clear(),
        1 => tray.push(0),
        2 => tray.truncate(tray.len() - 1),
        3 => tray[0] = tray[0].wrapping_sub(1),
        _ => tray[0] = r.one_of(&[tray[0] + 1, u32::MAX, 1 << 31, ONES + 1]),
    }
}

fn some(keys: &Keys, state: &mut State, p: &Description, r: &mut Random, tally: &mut Tally) -> Result<(), Differs> {
    for _ in 0..r.between(1, 3) {
        let mut tray = records(p, keys, r);
        if r.once_in(10) {
            mismatched(&mut tray, r);
        }
        let words = if r.once_in(20) { r.one_of(&[0, 1, 3]) } else { 2 };
        let told = vec![r.next(); words];
        put_in(&tray, &told, state, tally)?;
    }
    Ok(())
}

/// Trays on a state of a session, now and then closed, with words or sizes spoilt.
pub fn compare(keys: &Keys, kept: &State, r: &mut Random, tally: &mut Tally) -> Result<(), Differs> {
    let mut state = kept.clone();
    let p = state.description();
    if r.once_in(3) {
        spoil(&p, &mut state, r);
    }
    if r.once_in(10) {
        state.words[6] = 0;
    }
    if r.once_in(12) {
        spoil_sizes(&mut state, r);
    }
    some(keys, &mut state, &p, r, tally)
}

/// Trays on blocks named at random.
pub fn made_up(r: &mut Random, tally: &mut Tally) -> Result<(), Differs> {
    let (p, keys, mut state) = loose::state(r);
    some(&keys, &mut state, &p, r, tally)
}

fn expect<T: PartialEq + std::fmt::Debug>(what: &str, found: T, wanted: T) -> Result<(), Differs> {
    if found == wanted {
        return Ok(());
    }
    Err(format!("{what}: {found:?}, and not {wanted:?}"))
}

/// A tray, and what it is to answer: stored, number, transfers.
type Run = (&'static [u32], (u64, u32, u64));

const FULL: [Run; 7] = [
    (&[4, 10, 1, 2, 20, 3, 4, 5, 7, 7, 15, 6, 6], (4, 0o070001, 17)),
    (&[3, 12, 0, 0, 13, 0, 0, 14, 0, 0], (0, 0o070002, 3)),
    (&[0], (0, 0, 0)),
    (&[1, 20, 9, 9], (0, 0o000001, 0)),
    (&[1, 262143, 0, 0], (0, 0o030001, 0)),
    (&[2, 1, 2, 3], (0, 0o020007, 0)),
    (&[], (0, 0o020007, 0)),
];

const SHUT: [Run; 3] = [(&[0], (0, 0o020005, 0)), (&[1, 1, 1, 1], (0, 0o020005, 0)), (&[1], (0, 0o020007, 0))];

fn played(runs: &[Run], state: &mut State) -> Result<(), Differs> {
    for (tray, wanted) in runs {
        expect(&format!("tray {tray:?}"), put_in(tray, &[9, 9], state, &mut Tally::new())?, *wanted)?;
    }
    Ok(())
}

fn call(kind: Kind, work: &[u32], state: &mut State) -> Result<(u32, usize), Differs> {
    state.lent.workspace[..work.len()].copy_from_slice(work);
    let answer = both::call(kind, state, &mut both::Tally::default())?;
    Ok((answer.number, answer.moves.len()))
}

/// The stored runs: a file of four blocks filled by one tray, and what comes then.
pub fn stored() -> Result<(), Differs> {
    let mut state = State::new(Description { wpb: 8, wpr: 3, k: 1, space: 0, control: 2, n: 4, form: 1 });
    call(Kind::Create, &[], &mut state)?;
    call(Kind::Open, &[], &mut state)?;
    played(&FULL[..1], &mut state)?;
    let blocks = [[3, 10, 2, 20, 4, 262143, 3, 0], [2, 5, 7, 7, 10, 1, 2, 0], [1, 262143, 0, 0, 0, 0, 0, 0], [1, 20, 3, 4, 0, 0, 0, 0]];
    let file: Vec<u32> = [1, 0, 5, 262143, 1, 0, 0, 0].into_iter().chain(blocks.into_iter().flatten()).collect();
    expect("the file", &state.lent.file, &file)?;
    expect("the buffer", &state.lent.buffer, &vec![2, 15, 6, 6, 20, 3, 4, 0])?;
    expect("the session", &state.words[6..11], &[1, 4, 1, 1, 15])?;
    played(&FULL[1..], &mut state)?;
    expect("the session", &state.words[6..11], &[1, 4, 0, 1, 15])?;
    expect("DLETE 5", call(Kind::Dlete, &[5], &mut state)?, (0, 2))?;
    expect("DLETE 10", call(Kind::Dlete, &[10], &mut state)?, (0, 3))?;
    played(&[(&[3, 30, 0, 0, 40, 262144, 0, 50, 0, 0], (1, 0o030001, 2))], &mut state)?;
    expect("the buffer", &state.lent.buffer, &vec![2, 30, 0, 0, 262143, 0, 0, 0])?;
    expect("the session", &state.words[6..11], &[1, 3, 1, 1, 30])?;
    call(Kind::Close, &[], &mut state)?;
    played(&SHUT, &mut state)
}
