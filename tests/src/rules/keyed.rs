//! The guards that stand before every call on records, and the calls SEEK and UPDAT.
use super::lookup::lookup;
use super::texts::{Plan, Planned, Texts};
use super::*;

impl Session {
    /// Lengths, then whether the session is open.
    fn guard(&self, l: &Lent) -> Option<u32> {
        if !self.sizes_fit(l) || l.workspace.len() != self.p.wpr() {
            Some(WRONG_SIZE)
        } else if !self.open {
            Some(CLOSED)
        } else {
            None
        }
    }

    /// The first `read` words of the workspace are words, and the key is not ONES.
    fn guard_words(&self, l: &Lent, read: usize) -> Option<u32> {
        let large = l.workspace[..read].iter().any(|&x| x > ONES);
        let ones = l.workspace[..self.p.k()].iter().all(|&x| x == ONES);
        (large || ones).then_some(BAD_WORD)
    }

    fn perform(&mut self, l: &mut Lent, planned: fn(&Texts) -> Planned<Plan>) -> Answer {
        match planned(&Texts { s: self, l }) {
            Err(_) => Answer::refused(BAD_FILE),
            Ok(plan) => plan.commit(self, l),
        }
    }

    fn keyed(&mut self, l: &mut Lent, key_only: bool, planned: fn(&Texts) -> Planned<Plan>) -> Answer {
        if let Some(number) = self.guard(l) {
            return Answer::refused(number);
        }
        let read = if key_only { self.p.k() } else { self.p.wpr() };
        if let Some(number) = self.guard_words(l, read) {
            return Answer::refused(number);
        }
        self.perform(l, planned)
    }

    pub fn seek(&mut self, l: &mut Lent) -> Answer {
        self.keyed(l, true, seek)
    }

    pub fn updat(&mut self, l: &mut Lent) -> Answer {
        self.keyed(l, false, updat)
    }

    pub fn nsert(&mut self, l: &mut Lent) -> Answer {
        self.keyed(l, false, nsert::nsert)
    }

    pub fn dlete(&mut self, l: &mut Lent) -> Answer {
        self.keyed(l, true, dlete::dlete)
    }

    pub fn xtend(&mut self, l: &mut Lent) -> Answer {
        self.keyed(l, false, xtend::xtend)
    }

    pub fn adv(&mut self, l: &mut Lent) -> Answer {
        match self.guard(l) {
            Some(number) => Answer::refused(number),
            None => self.perform(l, adv::adv),
        }
    }

    /// Any call; CREATE has no session, and takes its parameters alone.
    pub fn call(&mut self, kind: Kind, l: &mut Lent) -> Answer {
        match kind {
            Kind::Create => create(&self.p, &mut l.file),
            Kind::Open => self.open(l),
            Kind::Close => self.close(l),
            Kind::Seek => self.seek(l),
            Kind::Adv => self.adv(l),
            Kind::Nsert => self.nsert(l),
            Kind::Dlete => self.dlete(l),
            Kind::Updat => self.updat(l),
            Kind::Xtend => self.xtend(l),
        }
    }
}

impl<'a> Texts<'a> {
    /// The key that stands in the workspace.
    pub fn wanted(&self) -> &'a [u32] {
        &self.l.workspace[..self.p().k()]
    }
}

fn seek(t: &Texts) -> Planned<Plan> {
    let mut plan = Plan::begin(t);
    match lookup(t, &mut plan, t.wanted())?.found {
        None => plan.ends(NOT_FOUND),
        Some(j) => {
            plan.workspace = t.records().row(&plan.buffer, j).to_vec();
            plan.session.set_position(t.wanted());
            Ok(plan)
        }
    }
}

fn updat(t: &Texts) -> Planned<Plan> {
    let mut plan = Plan::begin(t);
    match lookup(t, &mut plan, t.wanted())?.found {
        None => plan.ends(NOT_FOUND),
        Some(j) => {
            t.records().set(&mut plan.buffer, j, &t.l.workspace);
            plan.session.flag = true;
            plan.session.set_position(t.wanted());
            Ok(plan)
        }
    }
}
