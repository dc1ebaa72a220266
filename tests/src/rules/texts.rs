//! The words as they stood when the call began, and the plan that is made from them.
use super::rows::Rows;
use super::*;

/// A number the call will use is bad: 070003.
pub struct Bad;
pub type Planned<T> = Result<T, Bad>;

pub fn need(good: bool) -> Planned<()> {
    if good {
        Ok(())
    } else {
        Err(Bad)
    }
}

/// Session and lent words at the call's beginning.
pub struct Texts<'a> {
    pub s: &'a Session,
    pub l: &'a Lent,
}

impl<'a> Texts<'a> {
    pub fn p(&self) -> &'a Description {
        &self.s.p
    }

    pub fn entries_of_master(&self) -> Rows {
        Rows { at: 3, width: self.p().k() + 1, k: self.p().k() }
    }

    pub fn entries(&self) -> Rows {
        Rows { at: 1, width: self.p().k() + 1, k: self.p().k() }
    }

    pub fn records(&self) -> Rows {
        Rows { at: 1, width: self.p().wpr(), k: self.p().k() }
    }

    /// "Current text of a block: the buffer if it is the current block, else the file."
    pub fn text(&self, b: u32) -> &'a [u32] {
        if b == self.s.current {
            return &self.l.buffer;
        }
        let start = self.p().start(b);
        &self.l.file[start..start + self.p().wpb()]
    }

    pub fn sections(&self) -> Planned<usize> {
        let sections = self.l.file[0];
        need((1..=self.p().control).contains(&sections))?;
        Ok(sections as usize)
    }

    fn counted(&self, b: u32, kind: Use, most: usize) -> Planned<(&'a [u32], usize)> {
        need(self.p().is_block(b))?;
        let text = self.text(b);
        Ok((text, self.p().counted(kind, text[0], most).ok_or(Bad)?))
    }

    /// The text of index block `b` and the number of its entries.
    pub fn index(&self, b: u32) -> Planned<(&'a [u32], usize)> {
        self.counted(b, Use::Index, self.p().i())
    }

    /// The text of detail block `b` and the number of its records.
    pub fn detail(&self, b: u32) -> Planned<(&'a [u32], usize)> {
        self.counted(b, Use::Detail, self.p().d())
    }

    /// The number of records buffered; none while current is 0.
    pub fn buffered(&self) -> Planned<Option<usize>> {
        if self.s.current == 0 {
            return Ok(None);
        }
        Ok(Some(self.detail(self.s.current)?.1))
    }
}

/// What the call will leave, and its list of transfers.
pub struct Plan {
    pub number: u32,
    pub moves: Vec<Move>,
    pub events: Vec<Event>,
    pub stores: Vec<(u32, Vec<u32>)>,
    pub master: Vec<u32>,
    pub buffer: Vec<u32>,
    pub workspace: Vec<u32>,
    pub session: Session,
}

impl Plan {
    pub fn begin(t: &Texts) -> Plan {
        Plan {
            number: DONE,
            moves: Vec::new(),
            events: Vec::new(),
            stores: Vec::new(),
            master: t.l.file[..t.p().master()].to_vec(),
            buffer: t.l.buffer.clone(),
            workspace: t.l.workspace.clone(),
            session: t.s.clone(),
        }
    }

    pub fn write(&mut self, b: u32, words: Vec<u32>) {
        self.moves.push(Move::Write(b));
        self.stores.push((b, words));
    }

    /// Writes the buffer if flagged, and clears the flag.
    pub fn flush(&mut self) -> Planned<()> {
        if self.session.flag {
            need(self.session.p.is_block(self.session.current))?;
            self.write(self.session.current, self.buffer.clone());
            self.session.flag = false;
        }
        Ok(())
    }

    /// Reads detail block `b` into the buffer.
    pub fn fetch(&mut self, t: &Texts, b: u32) {
        self.moves.push(Move::Read(b));
        self.hold(b, t.text(b).to_vec());
    }

    pub fn hold(&mut self, b: u32, words: Vec<u32>) {
        self.buffer = words;
        self.session.current = b;
    }

    /// The plan ends early with this number.
    pub fn ends(mut self, number: u32) -> Planned<Plan> {
        self.number = number;
        Ok(self)
    }

    pub fn commit(self, s: &mut Session, l: &mut Lent) -> Answer {
        let p = s.p;
        for (b, words) in &self.stores {
            l.file[p.start(*b)..p.start(*b) + p.wpb()].copy_from_slice(words);
        }
        l.file[..p.master()].copy_from_slice(&self.master);
        l.buffer = self.buffer;
        l.workspace = self.workspace;
        *s = self.session;
        Answer { number: self.number, moves: self.moves, events: self.events }
    }
}
