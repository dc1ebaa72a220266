//! "The reading set": SEEK, ADV and VIEW of a finished list, CONTROL 1. The session's write flag is off; words that say otherwise are no reading session.
use super::*;

/// "every detail block but the last holds exactly FD records and block numbers follow key order: index 1, details 2 upwards, no free chain", of a good file.
fn finished(p: &Description, file: &[u32]) -> bool {
    let one = p.start(1) + 1;
    let Some(entries) = p.counted(Use::Index, file[p.start(1)], p.i()) else { return false };
    let in_order = |j: usize| {
        let block = file[one + j * (p.k() + 1) + p.k()];
        block as usize == j + 2 && (j + 1 == entries || p.counted(Use::Detail, file[p.start(block)], p.d()) == Some(p.fd()))
    };
    file[1] == 0 && file[3 + p.k()] == 1 && (0..entries).all(in_order)
}

impl Session {
    fn is_reading(&self) -> bool {
        self.p.control == 1 && !self.flag
    }

    /// A call of the reading set: it has no CREATE.
    pub fn read(&mut self, kind: Kind, l: &mut Lent) -> Answer {
        match kind {
            _ if !self.is_reading() => Answer::refused(WRONG_SIZE),
            Kind::Create | Kind::Open => self.read_open(l),
            Kind::Close | Kind::Seek | Kind::Adv => self.call(kind, l),
            _ if !self.sizes_fit(l) || l.workspace.len() != self.p.wpr() => Answer::refused(WRONG_SIZE),
            _ if !self.open => Answer::refused(CLOSED),
            _ => Answer::refused(READING_ONLY),
        }
    }

    fn read_open(&mut self, l: &mut Lent) -> Answer {
        let mut opened = self.clone();
        let answer = opened.open(l);
        if answer.number == DONE && !finished(&self.p, &l.file) {
            l.marks.fill(0);
            return Answer::refused(BAD_FILE);
        }
        *self = opened;
        answer
    }

    /// VIEW of the reading set.
    pub fn read_view(&self, l: &Lent, block: usize) -> Part {
        if self.is_reading() {
            self.view(l, block)
        } else {
            Part::Empty
        }
    }
}
