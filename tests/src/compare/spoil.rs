//! Ways to spoil a state.
use crate::random::Random;
use crate::state::{State, FORM};
use nasturakh_tests::rules::{Description, ONES};

/// A word near some limit.
pub fn word(p: &Description, r: &mut Random) -> u32 {
    match r.below(if p.form == 2 { 10 } else { 8 }) {
        0 => r.one_of(&[0, 1, ONES, ONES + 1, u32::MAX]),
        1 => p.n + r.between(0, 2),
        2 => p.control + r.between(0, 1),
        3 => p.d() as u32 + r.between(0, 1),
        4 => p.i() as u32 + r.between(0, 1),
        5 => r.between(0, 4),
        8 => r.one_of(&[4096, 8192, 12288]) + r.between(0, 2),
        9 => r.one_of(&[4096 + p.i() as u32, 8192 + p.d() as u32]) + r.between(0, 1),
        _ => r.between(0, p.n),
    }
}

/// A place in the file where a number stands that calls use.
pub fn place(p: &Description, r: &mut Random) -> usize {
    let entry = p.k() + 1;
    match r.below(6) {
        0 => r.below(3),
        1 => 3 + r.below(p.control as usize * entry),
        2 => p.start(r.between(1, p.n)),
        3 => p.start(r.between(1, p.n)) + 1 + r.below(p.wpb() - 1),
        4 => p.start(r.between(1, p.n)) + entry * r.between(1, p.i() as u32) as usize,
        _ => r.below(p.file_size()),
    }
}

fn spoil_session(p: &Description, state: &mut State, r: &mut Random) {
    match r.below(7) {
        0 => state.words[6] = r.between(0, 1),
        1 | 2 => state.words[7] = if r.once_in(4) { word(p, r) } else { r.between(0, p.n) },
        3 => state.words[8] = r.between(0, 1),
        4 => state.words[9] = r.between(0, 1),
        5 => state.words[10 + r.below(p.k())] = word(p, r),
        _ => state.words[10..10 + p.k()].fill(ONES),
    }
}

/// Makes a block current, with its own text or another block's in the buffer.
fn spoil_buffer(p: &Description, state: &mut State, r: &mut Random) {
    let b = r.between(1, p.n);
    let text = state.lent.file[p.start(b)..p.start(b) + p.wpb()].to_vec();
    match r.below(4) {
        0 => state.lent.buffer[0] = word(p, r),
        1 => state.lent.buffer[r.below(p.wpb())] = word(p, r),
        2 => state.lent.buffer = text,
        _ => {
            state.words[7] = b;
            state.lent.buffer = text;
        }
    }
}

/// Makes word 0 of a block, or of the buffer, that of another kind.
fn spoil_kind(p: &Description, state: &mut State, r: &mut Random) {
    let word = match r.below(4) {
        0 => &mut state.lent.buffer[0],
        _ => &mut state.lent.file[p.start(r.between(1, p.n))],
    };
    *word = word.wrapping_add(r.one_of(&[4096, 8192, 12288])) % 16384;
}

/// Lengths, flags and parameters that no call takes, or takes otherwise.
pub fn spoil_sizes(state: &mut State, r: &mut Random) {
    let by = r.one_of(&[-1, 1, 2]);
    let other = |length: usize| (length as i64 + by).max(0) as usize;
    match r.below(8) {
        0 => state.lent.file.resize(other(state.lent.file.len()), 0),
        1 => state.lent.buffer.resize(other(state.lent.buffer.len()), 0),
        2 => state.lent.workspace.resize(other(state.lent.workspace.len()), 0),
        3 => state.lent.marks.resize(other(state.lent.marks.len()), 0),
        4 => state.words.resize(other(state.words.len()), 0),
        5 => state.words[r.one_of(&[6, 8, 9])] = r.one_of(&[2, 3, 256, 65536, u32::MAX]),
        _ => spoil_parameters(state, r),
    }
}

/// A parameter changed, and the lengths fitted to it where that is possible.
fn spoil_parameters(state: &mut State, r: &mut Random) {
    let at = if state.words.len() > FORM && r.once_in(6) { FORM } else { r.below(6) };
    state.words[at] = match r.below(4) {
        0 => r.one_of(&[0, 1, 2, 5, 63, 64, 4095, 4096, 4097, 4098, 16383, 16384, 262142, 262143, u32::MAX]),
        1 => state.words[at].wrapping_sub(1),
        _ => state.words[at].wrapping_add(r.between(1, 2)),
    };
    let p = state.description();
    if p.in_range() && p.file_size() < 20000 && !r.once_in(4) {
        state.lent.file.resize(p.file_size(), 0);
        state.lent.buffer.resize(p.wpb(), 0);
        state.lent.workspace.resize(p.wpr(), 0);
        state.lent.marks.resize(p.n as usize, 0);
    }
}

/// One thing spoilt that no length depends on.
pub fn spoil(p: &Description, state: &mut State, r: &mut Random) {
    match r.below(if p.form == 2 { 5 } else { 4 }) {
        0 => spoil_session(p, state, r),
        1 => spoil_buffer(p, state, r),
        4 => spoil_kind(p, state, r),
        _ => state.lent.file[place(p, r)] = word(p, r),
    }
}
