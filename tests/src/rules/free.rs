//! New blocks: from the chain's head first, then word 2.
use super::texts::{need, Bad, Plan, Planned, Texts};
use super::*;

/// The free blocks as the call would leave them.
pub struct Free {
    pub head: u32,
    pub never: Option<u32>,
}

impl Free {
    pub fn begin(t: &Texts) -> Planned<Free> {
        need(t.l.file[1] <= t.p().n)?;
        Ok(Free { head: t.l.file[1], never: None })
    }

    /// Word 2, looked at only when the chain is empty.
    fn lowest(&self, t: &Texts) -> Planned<u32> {
        let word = self.never.unwrap_or(t.l.file[2]);
        need((1..=t.p().n + 1).contains(&word))?;
        Ok(word)
    }

    /// One block; none when no block is free.
    fn take(&mut self, t: &Texts) -> Planned<Option<u32>> {
        let head = self.head;
        if head != 0 {
            let link = t.p().link(t.text(head)).ok_or(Bad)?;
            need(link <= t.p().n)?;
            self.head = link;
            return Ok(Some(head));
        }
        let word = self.lowest(t)?;
        if word > t.p().n {
            return Ok(None);
        }
        self.never = Some(word + 1);
        Ok(Some(word))
    }

    pub fn take_all(&mut self, t: &Texts, wanted: usize) -> Planned<Option<Vec<u32>>> {
        let mut blocks = Vec::new();
        for _ in 0..wanted {
            match self.take(t)? {
                None => return Ok(None),
                Some(b) => blocks.push(b),
            }
        }
        Ok(Some(blocks))
    }

    pub fn none_left(&self, t: &Texts) -> Planned<bool> {
        Ok(self.head == 0 && self.lowest(t)? > t.p().n)
    }

    pub fn store(&self, plan: &mut Plan) {
        if plan.master[1] != 0 {
            plan.events.push(Event::ChainTaken);
        }
        plan.master[1] = self.head;
        if let Some(word) = self.never {
            plan.master[2] = word;
        }
    }
}

/// "A new block equal to any other block in the call's list of transfers" is bad.
pub fn no_clash(plan: &Plan, others: &[u32], fresh: &[u32]) -> Planned<()> {
    let listed = |b: u32| plan.moves.contains(&Move::Read(b)) || plan.moves.contains(&Move::Write(b)) || others.contains(&b);
    need(fresh.iter().all(|&b| !listed(b)))?;
    need(fresh.len() < 2 || fresh[0] != fresh[1])
}

/// 070001 when the record's block holds D and no block is free, else 0.
pub fn stored_number(t: &Texts, free: Option<&Free>, holds: usize) -> Planned<u32> {
    if holds != t.p().d() {
        return Ok(DONE);
    }
    let none = match free {
        Some(free) => free.none_left(t)?,
        None => Free::begin(t)?.none_left(t)?,
    };
    Ok(if none { STORED_FULL } else { DONE })
}
