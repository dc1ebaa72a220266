//! Fabricated words: a state of a session spoilt, or made up whole, and then any call.
use crate::both::{self, Differs, Tally};
use crate::keys::Keys;
use crate::loose;
use crate::random::Random;
use crate::sessions;
use crate::spoil::{place, spoil, spoil_sizes, word};
use crate::state::{State, FORM};
use nasturakh_tests::rules::{Description, Kind, Use};

const KINDS: [Kind; 9] = [Kind::Create, Kind::Open, Kind::Close, Kind::Seek, Kind::Adv, Kind::Nsert, Kind::Dlete, Kind::Updat, Kind::Xtend];

/// Calls on a state that was good up to a few spoilt words.
pub fn spoilt(keys: &Keys, good: &State, r: &mut Random, tally: &mut Tally) -> Result<(), Differs> {
    let mut state = good.clone();
    let p = state.description();
    let most = r.one_of(&[1, 1, 2, 4]);
    for _ in 0..most {
        spoil(&p, &mut state, r);
    }
    if r.once_in(12) {
        spoil_sizes(&mut state, r);
    }
    calls(keys, &mut state, r, tally)
}

/// OPEN of a file that was good up to one or two words, or is good still.
pub fn reopened(good: &State, r: &mut Random, tally: &mut Tally) -> Result<(), Differs> {
    let mut state = good.clone();
    let p = state.description();
    state.words[6] = 0;
    for _ in 0..r.one_of(&[0, 1, 1, 1, 1, 1, 2]) {
        let (at, from) = (place(&p, r), place(&p, r));
        match r.below(5) {
            0 => state.lent.file[at] = word(&p, r),
            1 => state.lent.file[at] = state.lent.file[from],
            2 => state.lent.file.swap(at, from),
            3 => state.lent.file[at] = state.lent.file[at].wrapping_add(1),
            _ => state.lent.file[at] = state.lent.file[at].saturating_sub(1),
        }
    }
    both::call(Kind::Open, &mut state, tally)?;
    Ok(())
}

/// Any calls on this state, the workspace filled as a session fills it, or with any words.
fn calls(keys: &Keys, state: &mut State, r: &mut Random, tally: &mut Tally) -> Result<(), Differs> {
    for _ in 0..r.between(1, 4) {
        let kind = if r.once_in(5) { r.one_of(&KINDS) } else { sessions::any_kind(r) };
        let key = match r.below(3) {
            0 if state.words.len() >= 13 => state.words[10..13].to_vec(),
            _ if kind == Kind::Xtend => keys.high(r),
            _ => keys.any(r),
        };
        for (j, word) in state.lent.workspace.iter_mut().enumerate() {
            *word = if j < key.len() { key[j] } else { r.between(0, 9) };
        }
        both::call(kind, state, tally)?;
        let block = if r.once_in(30) { r.one_of(&[usize::MAX, 1 << 32, (1 << 32) + 1]) } else { r.below(30) };
        both::view(block, state, tally)?;
    }
    Ok(())
}

/// Most often makes word 0 of a made-up block one that says its kind.
fn headed(p: &Description, words: &mut [u32], r: &mut Random) {
    if !r.once_in(6) {
        let kind = r.one_of(&[Use::Index, Use::Detail, Use::Detail, Use::Free]);
        words[0] = p.headed(kind, words[0] as usize % 8);
    }
}

/// Calls on words that are all made up, most of them small.
pub fn made_up(r: &mut Random, tally: &mut Tally) -> Result<(), Differs> {
    let p = sessions::parameters(r);
    let keys = Keys::new(&p, r);
    let mut state = State::new(p);
    let most = r.between(1, p.n + 1);
    let any = |r: &mut Random| if r.once_in(25) { word(&p, r) } else { r.between(0, most) };
    state.lent.file.iter_mut().for_each(|w| *w = any(r));
    state.lent.buffer.iter_mut().for_each(|w| *w = any(r));
    state.lent.marks.iter_mut().for_each(|m| *m = r.between(0, 255) as u8);
    if p.form == 2 {
        (1..=p.n).for_each(|b| headed(&p, &mut state.lent.file[p.start(b)..], r));
        headed(&p, &mut state.lent.buffer, r);
    }
    state.words[7..FORM].iter_mut().for_each(|w| *w = any(r));
    state.words[6] = !r.once_in(20) as u32;
    state.words[8] = r.between(0, 1);
    state.words[9] = r.between(0, 1);
    calls(&keys, &mut state, r, tally)
}

/// Calls on words of which each is in its range, but blocks name one another at random.
pub fn loose(r: &mut Random, tally: &mut Tally) -> Result<(), Differs> {
    let (p, keys, mut state) = loose::state(r);
    if r.once_in(8) {
        spoil(&p, &mut state, r);
    }
    calls(&keys, &mut state, r, tally)
}
