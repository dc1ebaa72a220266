//! Nasturakh in the run, with its transfers counted by kind.
use crate::engine::Engine;
use crate::names::{Name, Record, K, WPB, WPR};
use crate::nasturakh::{Answer, Parameters, Session, AT_END, DONE};

pub const P: Parameters = Parameters {
    wpb: WPB as u32,
    wpr: WPR as u32,
    k: K as u32,
    space: 5,
    control: 20,
    n: 2600,
};

/// The calls of a kind: how many, their transfers, the most of one call, and the detail and index blocks that they started.
#[derive(Clone, Copy, Default)]
pub struct Count {
    pub calls: u64,
    pub transfers: u64,
    pub most: u32,
    pub details: i64,
    pub indexes: i64,
}

pub struct Ours {
    session: Session,
    file: Vec<u32>,
    buffer: Vec<u32>,
    work: Record,
    marks: Vec<u8>,
    /// Detail and index blocks in use at the last OPEN.
    blocks: (i64, i64),
    kind: usize,
    pub counts: [Count; 5],
}

impl Ours {
    pub fn new() -> Self {
        let mut session = Session::new(P);
        let mut file = vec![0; P.file_words()];
        let buffer = vec![0; WPB];
        let mut marks = vec![0; P.n as usize];
        assert_eq!(session.create(&mut file).number, DONE);
        assert_eq!(session.open(&file, &buffer, &mut marks).number, DONE);
        Self {
            session,
            file,
            buffer,
            work: [0; WPR],
            marks,
            blocks: (1, 1),
            kind: 0,
            counts: [Count::default(); 5],
        }
    }

    fn said(&mut self, a: Answer) -> bool {
        let c = &mut self.counts[self.kind];
        c.calls += 1;
        c.transfers += u64::from(a.transfers);
        c.most = c.most.max(a.transfers);
        a.is_done()
    }

    /// Counts the blocks that the last kind's calls started, and leaves the session without a position, as a walk needs it.
    pub fn settle(&mut self) {
        assert_eq!(
            self.session.close(&mut self.file, &self.buffer).number,
            DONE
        );
        assert_eq!(
            self.session
                .open(&self.file, &self.buffer, &mut self.marks)
                .number,
            DONE
        );
        let used = self.marks.iter().filter(|&&m| m == 1).count() as i64;
        let indexes = i64::from(self.file[0]);
        let blocks = (used - indexes, indexes);
        let c = &mut self.counts[self.kind];
        c.details = blocks.0 - self.blocks.0;
        c.indexes = blocks.1 - self.blocks.1;
        self.blocks = blocks;
    }
}

impl Engine for Ours {
    fn begin(&mut self, kind: usize, _: bool) {
        if kind > 0 {
            self.settle();
        }
        self.kind = kind;
    }

    fn append(&mut self, name: &Name) -> bool {
        let a = self
            .session
            .xtend(&mut self.file, &mut self.buffer, &name.record);
        self.said(a)
    }

    fn seek(&mut self, name: &Name, out: &mut Record) -> bool {
        out[..K].copy_from_slice(&name.record[..K]);
        let a = self.session.seek(&mut self.file, &mut self.buffer, out);
        self.said(a)
    }

    fn insert(&mut self, name: &Name) -> bool {
        let a = self
            .session
            .nsert(&mut self.file, &mut self.buffer, &name.record);
        self.said(a)
    }

    fn delete(&mut self, name: &Name) -> bool {
        self.work[..K].copy_from_slice(&name.record[..K]);
        let a = self
            .session
            .dlete(&mut self.file, &mut self.buffer, &self.work);
        self.said(a)
    }

    fn walk(&mut self, mut take: impl FnMut(&Record)) {
        let mut out = [0; WPR];
        loop {
            let a = self.session.adv(&mut self.file, &mut self.buffer, &mut out);
            if !self.said(a) {
                assert_eq!(a.number, AT_END);
                return;
            }
            take(&out);
        }
    }

    fn end(&mut self) {}
}
