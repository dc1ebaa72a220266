//! Files copied under another CONTROL: good ones and spoilt ones, with the right sizes and wrong ones; the copy opened, and copied back.
use crate::archive;
use crate::both::{self, Differs, Tally};
use crate::random::Random;
use crate::spoil::{place, spoil_sizes, word};
use crate::state::State;
use nasturakh_tests::rules::{Description, Kind, DONE};

/// A CONTROL near a limit, or any small one.
fn control(state: &State, r: &mut Random) -> usize {
    let sections = state.lent.file.first().map_or(0, |&word| word as usize);
    let own = state.description().control as usize;
    match r.below(8) {
        0 => r.one_of(&[0, 1, 16382, 16383, 16384, usize::MAX, 1 << 32, (1 << 32) + own]),
        1 => sections,
        2 => sections.saturating_sub(1),
        3 => own,
        4 => own + r.between(0, 400) as usize,
        _ => sections + r.between(0, 4) as usize,
    }
}

/// The words of a file with this CONTROL; some words where there is none.
pub fn length(p: Description, control: usize) -> usize {
    let q = Description { control: u32::try_from(control).unwrap_or(0), ..p };
    if q.in_range() && q.file_size() < 100_000 {
        q.file_size()
    } else {
        40
    }
}

/// One copy made both ways; answers its number, with what was left in the second file.
pub fn copy(state: &State, second: &[u32], control: usize, tally: &mut Tally) -> Result<(u32, Vec<u32>), Differs> {
    let (mut proved, mut plain) = (state.clone(), state.clone());
    let (mut one, mut other) = (second.to_vec(), second.to_vec());
    let packed = archive::copy(&mut proved, &mut one, control);
    let number = plain.copy(&mut other, control).number;
    if packed != number as u64 || proved != plain || one != other {
        let before = format!("copy to CONTROL {control}\n{state:?}\nsecond before {second:?}");
        return Err(format!("{before}\narchive {packed:o}, {one:?}\n{proved:?}\nrendering {number:06o}, {other:?}\n{plain:?}"));
    }
    *tally.copies.entry(number).or_default() += 1;
    Ok((number, other))
}

/// The copy opens with the marks that the copying left, and copied back it is the file.
fn again(state: &State, copied: &[u32], control: usize, tally: &mut Tally) -> Result<(), Differs> {
    let own = state.description().control as usize;
    let mut opened = state.clone();
    opened.words[4] = control as u32;
    opened.lent.file = copied.to_vec();
    opened.lent.buffer = vec![0; state.description().wpb()];
    let back = copy(&opened, &vec![7; state.lent.file.len()], own, tally)?;
    let answer = both::call(Kind::Open, &mut opened, tally)?;
    if answer.number != DONE || back != (DONE, state.lent.file.clone()) {
        return Err(format!("OPEN of a copy answers {:06o}, copied back it is {back:?}: CONTROL {control}, {state:?}", answer.number));
    }
    Ok(())
}

/// A copy of this state's file, now and then with words, sizes or session spoilt.
pub fn compare(kept: &State, r: &mut Random, tally: &mut Tally) -> Result<(), Differs> {
    let mut state = kept.clone();
    state.words[6] = r.once_in(6) as u32;
    state.lent.marks.iter_mut().for_each(|mark| *mark = r.between(0, 255) as u8);
    if r.once_in(4) {
        let p = state.description();
        state.lent.file[place(&p, r)] = word(&p, r);
    }
    if r.once_in(10) {
        spoil_sizes(&mut state, r);
    }
    let control = control(&state, r);
    let p = state.words.get(..6).map_or(kept.description(), Description::from_words);
    let wrong = if r.once_in(10) { r.between(0, 2) as usize } else { 1 };
    let second: Vec<u32> = (0..(length(p, control) + wrong).saturating_sub(1)).map(|_| r.between(0, 300_000)).collect();
    let (number, copied) = copy(&state, &second, control, tally)?;
    if number == DONE {
        again(&state, &copied, control, tally)?;
    }
    Ok(())
}
