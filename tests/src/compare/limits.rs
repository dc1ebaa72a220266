//! Parameters at the ends of their ranges, and just outside.
use crate::both::{self, Differs, Tally};
use crate::random::Random;
use crate::state::State;
use nasturakh_tests::rules::{Description, Kind, Lent};

/// Files above this are not made: a call on them is tried with a short one.
const LARGEST: usize = 400_000;

fn draw(r: &mut Random) -> Description {
    let wpb: u32 = r.one_of(&[4, 5, 6, 7, 8, 128, 130, 192, 4094, 4095, 4096, 4097, 4098]);
    let k: u32 = r.one_of(&[0, 1, 2, 3, 62, 63, 64]);
    let half = (wpb - 1) / 2;
    let wpr = r.one_of(&[0, k, k, k + 1, k.saturating_sub(1), half, half, half + 1, u32::MAX]);
    let d = if wpr == 0 { 0 } else { (wpb - 1) / wpr };
    let i = (wpb - 1) / (k + 1);
    let space = r.one_of(&[0, 0, 0, 1, d.saturating_sub(2), i.saturating_sub(2), d.saturating_sub(1), i.saturating_sub(1)]);
    let control = r.one_of(&[0, 1, 1, 2, 4095, 4096, 16382, 16383, 16384]);
    let n = r.one_of(&[0, 1, 2, 2, 3, 3, 4, 262142, 262143, u32::MAX]);
    let form = r.one_of(&[1, 1, 1, 1, 2, 2, 2, 2, 0, 3, u32::MAX]);
    Description { wpb, wpr, k, space, control, n, form }
}

/// Parameters at the ends of their ranges; half the time some in range are looked for.
pub fn parameters(r: &mut Random) -> Description {
    let first = draw(r);
    if r.once_in(2) {
        return first;
    }
    (0..200).map(|_| draw(r)).find(|p| p.in_range() && p.file_size() <= LARGEST).unwrap_or(first)
}

/// A state whose lengths fit, if the parameters are in range and the file is not too large.
fn state(p: Description) -> State {
    if p.in_range() && p.file_size() <= LARGEST {
        return State::new(p);
    }
    let mut state = State::new(Description { wpb: 8, wpr: 3, k: 1, space: 0, control: 2, n: 4, form: p.form });
    state.words[..6].copy_from_slice(&[p.wpb, p.wpr, p.k, p.space, p.control, p.n]);
    state.lent = Lent { buffer: vec![0; p.wpb as usize], workspace: vec![0; (p.wpr as usize).min(5000)], ..state.lent };
    state
}

pub fn compare(r: &mut Random, tally: &mut Tally) -> Result<(), Differs> {
    let p = parameters(r);
    let mut state = state(p);
    state.words[6] = r.once_in(8) as u32;
    for kind in [Kind::Create, Kind::Open, Kind::Nsert, Kind::Nsert, Kind::Xtend, Kind::Seek, Kind::Adv, Kind::Dlete, Kind::Updat, Kind::Close] {
        if kind != Kind::Seek {
            state.lent.workspace.iter_mut().for_each(|word| *word = r.between(0, 9));
        }
        both::call(kind, &mut state, tally)?;
        both::view(r.below(6), &state, tally)?;
    }
    Ok(())
}

/// The most blocks a file can have.
pub fn most_blocks(tally: &mut Tally) -> Result<(), Differs> {
    let mut state = State::new(Description { wpb: 6, wpr: 2, k: 1, space: 0, control: 1, n: 262142, form: 1 });
    for kind in [Kind::Create, Kind::Open, Kind::Nsert, Kind::Close] {
        state.lent.workspace.fill(5);
        both::call(kind, &mut state, tally)?;
        both::view(262142, &state, tally)?;
    }
    Ok(())
}
