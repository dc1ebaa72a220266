//! "Lookup", and the way from the master to a detail block.
use super::texts::{need, Bad, Plan, Planned, Texts};
use super::*;

/// A section, its index block, an entry of it, and the detail block under that.
#[derive(Clone, Copy)]
pub struct Way {
    pub section: usize,
    pub index: u32,
    pub entry: usize,
    pub detail: u32,
}

impl<'a> Texts<'a> {
    /// The way by entry `entry` of section `section`.
    pub fn way(&self, section: usize, entry: usize) -> Planned<Way> {
        let index = self.entries_of_master().block(&self.l.file, section);
        let detail = self.entries().block(self.index(index)?.0, entry);
        need(self.p().is_block(detail) && detail != index)?;
        Ok(Way { section, index, entry, detail })
    }

    /// The way by the first bounds not below the key.
    pub fn way_for(&self, key: &[u32]) -> Planned<Way> {
        let master = self.entries_of_master();
        let section = master.first(&self.l.file, self.sections()?, |bound| bound >= key).ok_or(Bad)?;
        let (text, count) = self.index(master.block(&self.l.file, section))?;
        let entry = self.entries().first(text, count, |bound| bound >= key).ok_or(Bad)?;
        self.way(section, entry)
    }

    /// The way by the last entries.
    pub fn way_to_last(&self) -> Planned<Way> {
        let section = self.sections()? - 1;
        let (_, count) = self.index(self.entries_of_master().block(&self.l.file, section))?;
        self.way(section, count - 1)
    }
}

impl Plan {
    /// Writes if flagged, reads the index block and then the detail block of the way.
    pub fn reach(&mut self, t: &Texts, way: Way) -> Planned<()> {
        self.flush()?;
        t.detail(way.detail)?;
        self.moves.push(Move::Read(way.index));
        self.fetch(t, way.detail);
        Ok(())
    }
}

/// What a lookup comes to: the block reached, its way if one was taken, and the record's place if there.
pub struct Looked {
    pub way: Option<Way>,
    pub count: usize,
    pub found: Option<usize>,
}

pub fn lookup(t: &Texts, plan: &mut Plan, key: &[u32]) -> Planned<Looked> {
    let records = t.records();
    if let Some(count) = t.buffered()? {
        let found = records.first(&t.l.buffer, count, |k| k == key);
        if found.is_some() {
            return Ok(Looked { way: None, count, found });
        }
    }
    let way = t.way_for(key)?;
    plan.reach(t, way)?;
    let (text, count) = t.detail(way.detail)?;
    Ok(Looked { way: Some(way), count, found: records.first(text, count, |k| k == key) })
}
