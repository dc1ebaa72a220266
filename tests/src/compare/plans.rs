//! Plans: the archive's bound compared with the rendering's, and held against what sessions cost.
use crate::archive;
use crate::both::{Differs, Tally};
use crate::limits;
use crate::random::Random;
use crate::sessions;
use crate::state::{described, is_session, State, SESSION_WORDS};
use nasturakh_tests::rules::{Answer, Description, Kind, Plan, DONE, STORED_FULL};

/// What the archive says where there is no plan.
pub const NO_PLAN: u64 = u64::MAX;

/// The plan in the order of the archive's eight words.
fn words(plan: &Plan) -> Vec<u32> {
    vec![plan.seek, plan.updat, plan.nsert, plan.adv, plan.dlete, plan.xtend, plan.close, plan.records]
}

pub fn any_count(r: &mut Random) -> u32 {
    match r.below(4) {
        0 => r.one_of(&[0, 1, u32::MAX - 1, u32::MAX]),
        1 => r.between(0, 100),
        _ => r.next() as u32,
    }
}

fn any_plan(r: &mut Random) -> Plan {
    Plan {
        seek: any_count(r),
        updat: any_count(r),
        nsert: any_count(r),
        adv: any_count(r),
        dlete: any_count(r),
        xtend: any_count(r),
        close: any_count(r),
        records: any_count(r),
    }
}

/// Session words with these parameters, and now and then no session.
pub fn session_words(p: Description, r: &mut Random) -> Vec<u32> {
    let mut words: Vec<u32> = [p.wpb, p.wpr, p.k, p.space, p.control, p.n].into_iter().collect();
    words.extend((6..SESSION_WORDS).map(|j| if matches!(j, 6 | 8 | 9) { r.between(0, 1) } else { r.next() as u32 }));
    if p.form != 1 || r.once_in(2) {
        words.push(p.form);
    }
    match r.below(12) {
        0 => words.truncate(r.below(SESSION_WORDS)),
        1 => words.resize(SESSION_WORDS + 2, 0),
        2 => words[r.one_of(&[6, 8, 9])] = r.one_of(&[2, u32::MAX]),
        _ => {}
    }
    words
}

/// The rendering's bound, where there is a session, parameters in range and a plan of eight words.
fn expected(session: &[u32], plan: &Plan, length: usize) -> Option<u128> {
    if !is_session(session) || length != 8 {
        return None;
    }
    let p = described(session);
    p.in_range().then(|| plan.most_transfers(&p))
}

/// Any parameters, any plan, now and then of another length.
pub fn compare(r: &mut Random, tally: &mut Tally) -> Result<(), Differs> {
    let p = if r.once_in(2) { sessions::parameters(r) } else { limits::parameters(r) };
    let session = session_words(p, r);
    let plan = any_plan(r);
    let mut lent = words(&plan);
    match r.below(16) {
        0 => lent.truncate(r.below(8)),
        1 => lent.push(r.next() as u32),
        _ => {}
    }
    let most = archive::most_transfers(&session, &lent);
    let want = expected(&session, &plan, lent.len());
    *tally.plans.entry(if want.is_some() { "bound" } else { "no plan" }).or_default() += 1;
    if u128::from(most) == want.unwrap_or(u128::from(NO_PLAN)) {
        return Ok(());
    }
    Err(format!("most transfers of {lent:?} with session {session:?}: archive {most}, rendering {want:?}"))
}

/// What a session has done since a CREATE and an OPEN that both answered 0.
#[derive(Default)]
pub struct Spent {
    created: bool,
    begun: bool,
    plan: Plan,
    transfers: u64,
}

impl Spent {
    /// Takes a call into account: it must keep to the archive's bound for all calls so far.
    pub fn learn(&mut self, kind: Kind, answer: &Answer, state: &State, tally: &mut Tally) -> Result<(), Differs> {
        let done = answer.number == DONE;
        if kind == Kind::Create {
            *self = Spent { created: done, ..Spent::default() };
        } else if !self.begun {
            self.begun = self.created && kind == Kind::Open && done;
        } else {
            self.plan.count(kind, done || answer.number == STORED_FULL);
            self.transfers += answer.moves.len() as u64;
            return self.keeps(state, tally);
        }
        Ok(())
    }

    fn keeps(&self, state: &State, tally: &mut Tally) -> Result<(), Differs> {
        let most = archive::most_transfers(&state.words, &words(&self.plan));
        *tally.plans.entry("kept").or_default() += 1;
        if self.transfers <= most && most != NO_PLAN {
            return Ok(());
        }
        Err(format!("{} transfers of {:?} with session {:?}, at most {most}", self.transfers, self.plan, state.words))
    }
}
