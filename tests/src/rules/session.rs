//! The session, with the calls that open, close and show a file, and CREATE, which has no session.
use super::*;

#[derive(Clone, Debug, PartialEq, Eq)]
pub struct Session {
    pub p: Description,
    pub open: bool,
    pub current: u32,
    pub flag: bool,
    pub given: bool,
    /// The position: its first K words count, and only while `given`.
    pub position: [u32; 63],
}

pub fn create(p: &Description, file: &mut [u32]) -> Answer {
    if !p.in_range() || file.len() != p.file_size() {
        return Answer::refused(WRONG_SIZE);
    }
    let k = p.k();
    file.fill(0);
    file[0] = 1;
    file[2] = 3;
    file[3..3 + k].fill(ONES);
    file[3 + k] = 1;
    let (one, two) = (p.start(1), p.start(2));
    file[one] = p.headed(Use::Index, 1);
    file[one + 1..one + 1 + k].fill(ONES);
    file[one + 1 + k] = 2;
    file[two] = p.headed(Use::Detail, 1);
    file[two + 1..two + 1 + k].fill(ONES);
    Answer::refused(DONE)
}

impl Session {
    pub fn new(p: Description) -> Session {
        Session { p, open: false, current: 0, flag: false, given: false, position: [0; 63] }
    }

    /// The parameters and the lengths of file and buffer, which every call of a session looks at.
    pub(super) fn sizes_fit(&self, l: &Lent) -> bool {
        self.p.in_range() && l.file.len() == self.p.file_size() && l.buffer.len() == self.p.wpb()
    }

    fn reset(&mut self, open: bool) {
        *self = Session { open, ..Session::new(self.p) };
    }

    pub(super) fn set_position(&mut self, key: &[u32]) {
        self.given = true;
        self.position[..key.len()].copy_from_slice(key);
    }

    pub fn open(&mut self, l: &mut Lent) -> Answer {
        if !self.sizes_fit(l) || l.marks.len() != self.p.n as usize {
            return Answer::refused(WRONG_SIZE);
        }
        if self.open {
            return Answer::refused(ALREADY_OPEN);
        }
        match inspect(&self.p, &l.file) {
            None => {
                l.marks.fill(0);
                Answer::refused(BAD_FILE)
            }
            Some(marks) => {
                l.marks.copy_from_slice(&marks);
                self.reset(true);
                Answer::refused(DONE)
            }
        }
    }

    pub fn close(&mut self, l: &mut Lent) -> Answer {
        if !self.sizes_fit(l) {
            return Answer::refused(WRONG_SIZE);
        }
        if !self.open {
            return Answer::refused(CLOSED);
        }
        let mut moves = Vec::new();
        if self.flag {
            if !self.p.is_block(self.current) {
                return Answer::refused(BAD_FILE);
            }
            let start = self.p.start(self.current);
            l.file[start..start + self.p.wpb()].copy_from_slice(&l.buffer);
            moves.push(Move::Write(self.current));
        }
        self.reset(false);
        Answer { number: DONE, moves, events: Vec::new() }
    }

    pub fn view(&self, l: &Lent, block: usize) -> Part {
        match u32::try_from(block) {
            Ok(b) if self.sizes_fit(l) && self.open && self.p.is_block(b) => {
                if b == self.current {
                    Part::Buffer
                } else {
                    Part::File(self.p.start(b))
                }
            }
            _ => Part::Empty,
        }
    }
}
