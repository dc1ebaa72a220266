//! What a call is, what it answers, and what it is lent.

/// The ten calls but VIEW, which answers no number.
#[derive(Clone, Copy, Debug, PartialEq, Eq, PartialOrd, Ord, Hash)]
pub enum Kind {
    Create,
    Open,
    Close,
    Seek,
    Adv,
    Nsert,
    Dlete,
    Updat,
    Xtend,
}

/// A transfer: one block read or written.
#[derive(Clone, Copy, Debug, PartialEq, Eq)]
pub enum Move {
    Read(u32),
    Write(u32),
}

/// What befell the blocks in a call, so that a run can tell what it has tried.
#[derive(Clone, Copy, Debug, PartialEq, Eq, PartialOrd, Ord)]
pub enum Event {
    DetailSplit,
    IndexSplit,
    BlockStarted,
    SectionStarted,
    BlockEmptied,
    IndexEmptied,
    NextBlock,
    NextSection,
    ChainTaken,
    StoredBehind,
    SplitBehind,
}

/// What a call answers: its number, and its list of transfers, whose length is the count.
#[derive(Clone, Debug, PartialEq, Eq)]
pub struct Answer {
    pub number: u32,
    pub moves: Vec<Move>,
    pub events: Vec<Event>,
}

impl Answer {
    pub fn refused(number: u32) -> Answer {
        Answer { number, moves: Vec::new(), events: Vec::new() }
    }
}

/// What the caller lends.
#[derive(Clone, Debug, PartialEq, Eq)]
pub struct Lent {
    pub file: Vec<u32>,
    pub buffer: Vec<u32>,
    pub workspace: Vec<u32>,
    pub marks: Vec<u8>,
}

/// The part VIEW lends back.
#[derive(Clone, Copy, Debug, PartialEq, Eq)]
pub enum Part {
    Empty,
    File(usize),
    Buffer,
}
