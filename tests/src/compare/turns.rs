//! Files turned to the other block form: good ones and spoilt ones, with the right sizes and wrong ones; opened then, and turned back. And
//! blocks that say a wrong kind.
use crate::archive;
use crate::both::{self, Differs, Tally};
use crate::keys::Keys;
use crate::random::Random;
use crate::sessions;
use crate::spoil::{place, spoil_sizes, word};
use crate::state::{State, FORM};
use nasturakh_tests::rules::{Kind, ALREADY_OPEN, BAD_FILE, DONE, WRONG_SIZE};

/// One turn made both ways; answers its number. The state is then what both left.
pub fn turn(state: &mut State, tally: &mut Tally) -> Result<u32, Differs> {
    let (before, mut proved) = (state.clone(), state.clone());
    let packed = archive::turn(&mut proved);
    let number = state.turn().number;
    if packed != number as u64 || proved != *state {
        return Err(format!("turn\n{before:?}\narchive {packed:o}\n{proved:?}\nrendering {number:06o}\n{state:?}"));
    }
    *tally.turns.entry(number).or_default() += 1;
    Ok(number)
}

/// What each word 0 of a file in the second form says, against the marks.
fn kinds_told(state: &State) -> bool {
    let p = state.description();
    let fits = |b: u32| match state.lent.marks[b as usize - 1] {
        1 => matches!(state.lent.file[p.start(b)] / 4096, 1 | 2),
        2 => state.lent.file[p.start(b)] == 12288,
        _ => state.lent.file[p.start(b)] == 0,
    };
    p.form == 1 || (1..=p.n).all(fits)
}

/// The turned file opens in its new form with the marks that turning left and not in its old one; turned back it is the file, and the session the session.
fn again(before: &State, turned: &State, tally: &mut Tally) -> Result<(), Differs> {
    let mut back = turned.clone();
    let number = turn(&mut back, tally)?;
    let mut opened = turned.clone();
    opened.lent.buffer.resize(turned.description().wpb(), 0);
    let mut wrong = opened.clone();
    wrong.words[FORM] = before.words[FORM];
    let answers = [both::call(Kind::Open, &mut opened, tally)?.number, both::call(Kind::Open, &mut wrong, tally)?.number];
    let same = back.words == before.words && back.lent.file == before.lent.file && opened.lent.marks == turned.lent.marks;
    if number == DONE && answers == [DONE, BAD_FILE] && same && kinds_told(turned) {
        return Ok(());
    }
    Err(format!("turned {before:?}\n{turned:?}\nand back {number:06o} {back:?}\nOPEN in the new form and the old {answers:?}"))
}

/// Refusals leave session and file, and the marks but for 070003, which leaves all 0.
fn left(before: &State, number: u32, after: &State) -> bool {
    let marks = match number {
        BAD_FILE => after.lent.marks.iter().all(|&mark| mark == 0),
        WRONG_SIZE | ALREADY_OPEN => after.lent.marks == before.lent.marks,
        _ => false,
    };
    marks && after.words == before.words && after.lent.file == before.lent.file
}

/// A turn of this state's file, now and then with words, sizes or session spoilt.
pub fn compare(kept: &State, r: &mut Random, tally: &mut Tally) -> Result<(), Differs> {
    let mut state = if r.once_in(12) { kept.clone() } else { kept.clone().with_form() };
    state.words[6] = r.once_in(6) as u32;
    state.words[7..10].copy_from_slice(&[r.between(0, 30), r.between(0, 1), r.between(0, 1)]);
    state.lent.marks.iter_mut().for_each(|mark| *mark = r.between(0, 255) as u8);
    let p = state.description();
    match r.below(8) {
        0 | 1 => state.lent.file[place(&p, r)] = word(&p, r),
        2 if state.words.len() > FORM => state.words[FORM] = r.between(1, 2),
        _ => {}
    }
    if r.once_in(10) {
        spoil_sizes(&mut state, r);
    }
    let before = state.clone();
    let number = turn(&mut state, tally)?;
    if number == DONE {
        return again(&before, &state, tally);
    }
    if left(&before, number, &state) {
        return Ok(());
    }
    Err(format!("turn {number:06o} of {before:?} leaves {state:?}"))
}

/// One block of a good file in the second form made to say another kind, and then a call: 070003 and nothing changed where the call reads
/// what the block says; else what it was without that.
pub fn wrong_kind(keys: &Keys, kept: &State, r: &mut Random, tally: &mut Tally) -> Result<(), Differs> {
    let p = kept.description();
    if p.form == 1 {
        return Ok(());
    }
    let kind = if r.once_in(8) { Kind::Open } else { sessions::any_kind(r) };
    let mut good = kept.clone();
    good.words[6] = (kind != Kind::Open) as u32;
    sessions::fill(kind, keys, &mut good, r);
    let mut spoilt = good.clone();
    let at = p.start(r.between(1, p.n));
    let said = spoilt.lent.file[at];
    spoilt.lent.file[at] = (said + r.one_of(&[4096, 8192, 12288])) % 16384;
    let before = spoilt.clone();
    let number = both::call(kind, &mut spoilt, tally)?.number;
    let without = good.call(kind).number;
    if number == BAD_FILE && without != BAD_FILE {
        spoilt.lent.marks = before.lent.marks.clone();
        *tally.kinds.entry("refused").or_default() += 1;
        return if spoilt == before { Ok(()) } else { Err(format!("{kind:?} changed {before:?}\nto {spoilt:?}")) };
    }
    *tally.kinds.entry("not looked at").or_default() += 1;
    if spoilt.lent.file[at] == before.lent.file[at] {
        spoilt.lent.file[at] = said;
        good.lent.file[at] = said;
    }
    if number == without && spoilt == good {
        return Ok(());
    }
    Err(format!("{kind:?} {number:06o} with a wrong kind, {without:06o} without\n{before:?}\n{spoilt:?}\n{good:?}"))
}
