//! Whole sessions from CREATE and OPEN, over many small parameter sets.
use crate::both::{self, Differs, Tally};
use crate::keys::Keys;
use crate::plans::Spent;
use crate::random::Random;
use crate::state::State;
use crate::twins::Twin;
use nasturakh_tests::rules::{Description, Kind, ONES};

/// Parameters in range, small enough that blocks and sections run out.
pub fn parameters(r: &mut Random) -> Description {
    loop {
        let k = r.between(1, 3);
        let p = Description {
            wpb: 2 * r.between(3, 20),
            wpr: k + r.between(0, 3),
            k,
            space: r.one_of(&[0, 0, 1, 2, 3]),
            control: r.between(1, 5),
            n: r.between(2, 24),
            form: r.between(1, 2),
        };
        if p.in_range() {
            return p;
        }
    }
}

/// What a session leans to, so that files grow, run full and empty again.
#[derive(Clone, Copy)]
enum Mood {
    Insert,
    Extend,
    Delete,
    Mixed,
}

pub fn any_kind(r: &mut Random) -> Kind {
    r.one_of(&[Kind::Seek, Kind::Adv, Kind::Nsert, Kind::Dlete, Kind::Updat, Kind::Xtend])
}

fn pick(mood: Mood, open: bool, r: &mut Random) -> Kind {
    if !open && !r.once_in(4) {
        return if r.once_in(8) { Kind::Create } else { Kind::Open };
    }
    if r.once_in(60) {
        return r.one_of(&[Kind::Close, Kind::Open]);
    }
    let leaning = match mood {
        Mood::Insert => Kind::Nsert,
        Mood::Extend => Kind::Xtend,
        Mood::Delete => Kind::Dlete,
        Mood::Mixed => any_kind(r),
    };
    if r.once_in(3) {
        any_kind(r)
    } else {
        leaning
    }
}

/// Puts a key and data into the workspace, now and then what no key or record may be. The highest name is struck off often, so that bounds outlive it.
pub fn fill(kind: Kind, keys: &Keys, state: &mut State, r: &mut Random) {
    let key = match kind {
        Kind::Xtend if !r.once_in(8) => keys.high(r),
        Kind::Dlete if r.once_in(3) => keys.highest(),
        _ => keys.any(r),
    };
    for word in state.lent.workspace.iter_mut() {
        *word = r.one_of(&[0, 1, 7, 262142, ONES]);
    }
    state.lent.workspace[..key.len()].copy_from_slice(&key);
    if r.once_in(40) {
        let j = r.below(state.lent.workspace.len());
        state.lent.workspace[j] = r.one_of(&[ONES, ONES + 1, u32::MAX]);
    }
    if r.once_in(60) {
        state.lent.workspace[..key.len()].fill(ONES);
    }
}

/// A session on its way: its keys, what it has cost, and the same session in the other block form.
struct Course {
    keys: Keys,
    spent: Spent,
    twin: Twin,
    state: State,
}

impl Course {
    fn begin(r: &mut Random) -> Course {
        let p = parameters(r);
        let state = if r.once_in(2) { State::new(p).with_form() } else { State::new(p) };
        Course { keys: Keys::new(&p, r), spent: Spent::default(), twin: Twin::of(p), state }
    }

    /// One call, what all calls may have cost, what the call is in the other form, and a look at a block.
    fn call(&mut self, kind: Kind, r: &mut Random, tally: &mut Tally) -> Result<(), Differs> {
        if matches!(kind, Kind::Seek | Kind::Nsert | Kind::Dlete | Kind::Updat | Kind::Xtend) {
            fill(kind, &self.keys, &mut self.state, r);
        }
        let work = self.state.lent.workspace.clone();
        let answer = both::call(kind, &mut self.state, tally)?;
        self.keys.learn(kind, answer.number, &work[..self.keys.k]);
        self.spent.learn(kind, &answer, &self.state, tally)?;
        self.twin.follow(kind, &work, &answer, &self.state)?;
        both::view(r.below(self.state.words[5] as usize + 2), &self.state, tally)
    }
}

/// A session of this many calls; CREATE comes only while it is closed. States on the way are kept.
pub fn session(calls: usize, r: &mut Random, tally: &mut Tally) -> Result<Vec<(Keys, State)>, Differs> {
    let mut course = Course::begin(r);
    let mut kept = Vec::new();
    if !r.once_in(20) {
        course.call(Kind::Create, r, tally)?;
        course.call(Kind::Open, r, tally)?;
    }
    let mut mood = Mood::Insert;
    for _ in 0..calls {
        if r.once_in(40) {
            mood = r.one_of(&[Mood::Insert, Mood::Extend, Mood::Delete, Mood::Mixed]);
        }
        course.call(pick(mood, course.state.words[6] == 1, r), r, tally)?;
        if r.once_in(10) {
            course.twin.turned(&course.state)?;
            kept.push((course.keys.clone(), course.state.clone()));
        }
    }
    kept.push((course.keys, course.state));
    Ok(kept)
}
