//! The name register: the archive compared with the rendering, on runs of register calls, on words made up, and on the stored run.
use crate::archive;
use crate::both::{self, Differs};
use crate::random::Random;
use crate::spoil::{spoil, spoil_sizes};
use crate::state::State;
use nasturakh_tests::rules::register::{Deed, HELD, RAW, ROMANISED};
use nasturakh_tests::rules::{Description, Kind, DONE, ONES};
use std::collections::BTreeMap;

/// How often each number was answered.
pub type Tally = BTreeMap<(&'static str, u32), u64>;

pub fn name(deed: &Deed) -> &'static str {
    match deed {
        Deed::Enter => "Enter",
        Deed::Ask => "Ask",
        Deed::Romanise(_) => "Romanise",
        Deed::Hold => "Hold",
        Deed::Free => "Free",
    }
}

/// Does it both ways; the state is then what both left.
fn call(deed: &Deed, state: &mut State, tally: &mut Tally) -> Result<(u32, usize), Differs> {
    let before = state.clone();
    let mut proved = state.clone();
    let packed = archive::register(deed, &mut proved);
    let answer = state.register(deed);
    let count = answer.moves.len();
    *tally.entry((name(deed), answer.number)).or_default() += 1;
    if packed == ((count as u64) << 32) + answer.number as u64 && proved == *state {
        return Ok((answer.number, count));
    }
    let answers = format!("archive {:06o} {}, rendering {:06o} {count}", packed as u32, packed >> 32, answer.number);
    Err(format!("{deed:?}, before {before:?}\n{answers}\narchive {proved:?}\nrendering {state:?}\n"))
}

/// Small files whose records have a state, and now and then no word behind the key.
fn description(r: &mut Random) -> Description {
    let k = r.between(1, 2);
    let wpr = k + if r.once_in(12) { 0 } else { r.between(1, 4) };
    let wpb = (2 * wpr + 1 + r.between(0, 12)).max(2 * (k + 1) + 1).max(6).div_ceil(2) * 2;
    Description { wpb, wpr, k, space: 0, control: r.between(1, 4), n: r.between(2, 12), form: r.between(1, 2) }
}

fn spelling(p: &Description, r: &mut Random) -> Vec<u32> {
    let words = (p.wpr() + r.below(30) / 29).saturating_sub(p.k() + 1);
    (0..words).map(|_| if r.once_in(25) { ONES + 1 } else { r.between(0, 9) }).collect()
}

fn deed(p: &Description, r: &mut Random) -> Deed {
    match r.below(6) {
        0 | 1 => Deed::Enter,
        2 => Deed::Ask,
        3 => Deed::Romanise(spelling(p, r)),
        4 => Deed::Hold,
        _ => Deed::Free,
    }
}

fn lend(p: &Description, state: &mut State, r: &mut Random) {
    state.lent.workspace = (0..p.wpr()).map(|_| if r.once_in(60) { r.one_of(&[ONES, ONES + 1]) } else { r.between(0, 6) }).collect();
}

/// What the register knows of the names, by their keys: the state, and the spelling given.
type Names = BTreeMap<Vec<u32>, (u32, Vec<u32>)>;

/// What the answer makes of the names; a difference where a number and the names do not agree.
fn learn(deed: &Deed, key: Vec<u32>, p: &Description, number: u32, names: &mut Names) -> Result<(), Differs> {
    let zero = vec![0; p.wpr() - p.k() - 1];
    let was = names.get(&key).cloned();
    let now = match (deed, number, was.clone()) {
        (Deed::Enter, 0 | 0o070001, None) => Some((RAW, zero)),
        (Deed::Romanise(words), DONE, Some((RAW, _))) => Some((ROMANISED, words.clone())),
        (Deed::Hold, DONE, Some((ROMANISED, words))) => Some((HELD, words)),
        (Deed::Free, DONE, Some((HELD, words))) => Some((ROMANISED, words)),
        (Deed::Ask, DONE, Some(was)) => Some(was),
        (Deed::Enter | Deed::Romanise(_) | Deed::Hold | Deed::Free, DONE | 0o070001, _) => return Err(format!("{deed:?} {number:06o} of {was:?}")),
        (_, 0o030007, None) | (Deed::Ask, 1, Some(_)) => return Err(format!("{deed:?} {number:06o} of {was:?}")),
        (_, _, was) => was,
    };
    if let Some(now) = now {
        names.insert(key, now);
    }
    Ok(())
}

/// A run of register calls from CREATE and OPEN, closed and opened again now and then; what asking shows is what was entered and given.
pub fn run(r: &mut Random, tally: &mut Tally) -> Result<State, Differs> {
    let p = description(r);
    let mut state = State::new(p);
    let mut plain = both::Tally::default();
    let mut names = Names::new();
    both::call(Kind::Create, &mut state, &mut plain)?;
    both::call(Kind::Open, &mut state, &mut plain)?;
    for _ in 0..r.below(120) {
        if r.once_in(20) {
            both::call(Kind::Close, &mut state, &mut plain)?;
            both::call(Kind::Open, &mut state, &mut plain)?;
        }
        lend(&p, &mut state, r);
        let key = state.lent.workspace[..p.k()].to_vec();
        let deed = deed(&p, r);
        let (number, _) = call(&deed, &mut state, tally)?;
        if p.wpr > p.k {
            learn(&deed, key.clone(), &p, number, &mut names)?;
            if let (Deed::Ask, DONE, Some((at, words))) = (&deed, number, names.get(&key)) {
                if state.lent.workspace[p.k()] != *at || state.lent.workspace[p.k() + 1..] != words[..] {
                    return Err(format!("asking {key:?} shows {:?}, not {at} {words:?}", state.lent.workspace));
                }
            }
        }
    }
    Ok(state)
}

/// Calls on a state of a run with words or sizes spoilt.
pub fn made_up(kept: &State, r: &mut Random, tally: &mut Tally) -> Result<(), Differs> {
    let p = kept.description();
    let mut state = kept.clone();
    lend(&p, &mut state, r);
    for _ in 0..r.below(4) {
        spoil(&p, &mut state, r);
    }
    let asked = deed(&p, r);
    if r.once_in(6) {
        spoil_sizes(&mut state, r);
    }
    call(&asked, &mut state, tally).map(|_| ())
}

/// A line of the stored run: the deed, the name, then the number, the transfers, and the workspace left.
type Line = (&'static str, u32, &'static [u32], u32, usize, [u32; 4]);

#[rustfmt::skip]
const LINES: [Line; 18] = [
    ("enter", 10, &[], 0, 2, [10, 0, 0, 0]),
    ("enter", 10, &[], 1, 0, [10, 0, 0, 0]),
    ("hold", 10, &[], 0o030007, 0, [10, 0, 0, 0]),
    ("romanise", 11, &[7, 8], 1, 3, [11, 1, 2, 3]),
    ("romanise", 10, &[7, 262144], 0o030001, 0, [10, 1, 2, 3]),
    ("romanise", 10, &[7], 0o020007, 0, [10, 1, 2, 3]),
    ("romanise", 10, &[7, 8], 0, 0, [10, 1, 7, 8]),
    ("romanise", 10, &[9, 9], 0o030007, 0, [10, 1, 7, 8]),
    ("ask", 10, &[], 0, 0, [10, 1, 7, 8]),
    ("hold", 10, &[], 0, 0, [10, 2, 7, 8]),
    ("hold", 10, &[], 0o030007, 0, [10, 2, 7, 8]),
    ("romanise", 10, &[9, 9], 0o030007, 0, [10, 2, 7, 8]),
    ("free", 10, &[], 0, 0, [10, 1, 7, 8]),
    ("free", 10, &[], 0o030007, 0, [10, 1, 7, 8]),
    ("enter", 20, &[], 0, 7, [20, 0, 0, 0]),
    ("enter", 30, &[], 0, 2, [30, 0, 0, 0]),
    ("ask", 20, &[], 0, 3, [20, 0, 0, 0]),
    ("ask", 262143, &[], 0o030001, 0, [262143, 1, 2, 3]),
];

#[rustfmt::skip]
const FILE: [u32; 48] = [
    1, 0, 4, 262143, 1, 0, 0, 0,
    2, 20, 2, 262143, 3, 0, 0, 0, 0, 0,
    2, 10, 1, 7, 8, 20, 0, 0, 0, 0,
    2, 30, 0, 0, 0, 262143, 0, 0, 0, 0,
    0, 0, 0, 0, 0, 0, 0, 0, 0, 0,
];

/// The stored run: a key of one word, a spelling of two. What it answers was fixed before there was any code.
pub fn stored(tally: &mut Tally) -> Result<(), Differs> {
    let mut state = State::new(Description { wpb: 10, wpr: 4, k: 1, space: 0, control: 2, n: 4, form: 1 });
    let mut plain = both::Tally::default();
    both::call(Kind::Create, &mut state, &mut plain)?;
    both::call(Kind::Open, &mut state, &mut plain)?;
    for (kind, key, words, number, count, left) in LINES {
        let deed = match kind {
            "enter" => Deed::Enter,
            "ask" => Deed::Ask,
            "hold" => Deed::Hold,
            "free" => Deed::Free,
            _ => Deed::Romanise(words.to_vec()),
        };
        state.lent.workspace = vec![key, 1, 2, 3];
        let answer = call(&deed, &mut state, tally)?;
        if answer != (number, count) || state.lent.workspace != left {
            return Err(format!("{kind} {key} of the stored run was answered {:06o} {} with {:?}", answer.0, answer.1, state.lent.workspace));
        }
    }
    both::call(Kind::Close, &mut state, &mut plain)?;
    if state.lent.file != FILE {
        return Err(format!("the stored run left {:?}", state.lent.file));
    }
    Ok(())
}
