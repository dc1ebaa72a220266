//! "Layout": which files open, and the marks OPEN leaves.
use super::rows::Rows;
use super::{Description, Use, ONES};

struct Walk<'a> {
    p: &'a Description,
    file: &'a [u32],
    /// 0 not met yet, 1 reached from the master, 2 chained, 3 never used.
    met: Vec<u8>,
    /// The bound, or the key, passed last.
    below: Option<Vec<u32>>,
    /// The record passed last.
    last: Option<Vec<u32>>,
}

/// The marks of a good file; none when the file is not as under Layout.
pub fn inspect(p: &Description, file: &[u32]) -> Option<Vec<u8>> {
    let mut w = Walk { p, file, met: vec![0; p.n as usize], below: None, last: None };
    if file.iter().any(|&x| x > ONES) || !w.master() || !w.chain() || !w.never_used() {
        return None;
    }
    if w.met.contains(&0) {
        return None;
    }
    Some(w.met.iter().map(|&m| if m == 3 { 0 } else { m }).collect())
}

fn is_ones(key: &[u32]) -> bool {
    key.iter().all(|&x| x == ONES)
}

impl<'a> Walk<'a> {
    fn block(&self, b: u32) -> &'a [u32] {
        let start = self.p.start(b);
        &self.file[start..start + self.p.wpb()]
    }

    /// Meets block `b`, which is a block and was not met before.
    fn meet(&mut self, b: u32, mark: u8) -> bool {
        if !self.p.is_block(b) || self.met[b as usize - 1] != 0 {
            return false;
        }
        self.met[b as usize - 1] = mark;
        true
    }

    fn master(&mut self) -> bool {
        let rows = Rows { at: 3, width: self.p.k() + 1, k: self.p.k() };
        let words = &self.file[..self.p.master()];
        let count = words[0] as usize;
        if count < 1 || count > self.p.control as usize || words[3 + count * rows.width..].iter().any(|&x| x != 0) {
            return false;
        }
        (0..count).all(|j| self.index(rows.block(words, j), rows.key(words, j))) && is_ones(rows.key(words, count - 1)) && self.ends()
    }

    fn index(&mut self, b: u32, bound: &[u32]) -> bool {
        if !self.meet(b, 1) {
            return false;
        }
        let rows = Rows { at: 1, width: self.p.k() + 1, k: self.p.k() };
        let words = self.block(b);
        let Some(count) = self.p.counted(Use::Index, words[0], self.p.i()) else { return false };
        if words[1 + count * rows.width..].iter().any(|&x| x != 0) {
            return false;
        }
        (0..count).all(|j| self.detail(rows.block(words, j), rows.key(words, j))) && rows.key(words, count - 1) == bound
    }

    fn detail(&mut self, b: u32, bound: &[u32]) -> bool {
        if !self.meet(b, 1) {
            return false;
        }
        let rows = Rows { at: 1, width: self.p.wpr(), k: self.p.k() };
        let words = self.block(b);
        let Some(count) = self.p.counted(Use::Detail, words[0], self.p.d()) else { return false };
        if words[1 + count * rows.width..].iter().any(|&x| x != 0) {
            return false;
        }
        self.last = Some(rows.row(words, count - 1).to_vec());
        for j in 0..count {
            let key = rows.key(words, j);
            if self.below.as_deref().is_some_and(|low| key <= low) || key > bound {
                return false;
            }
            self.below = Some(key.to_vec());
        }
        self.below = Some(bound.to_vec());
        true
    }

    /// The last record of the last block: key ONES, data 0.
    fn ends(&self) -> bool {
        let k = self.p.k();
        self.last.as_deref().is_some_and(|last| is_ones(&last[..k]) && last[k..].iter().all(|&x| x == 0))
    }

    fn chain(&mut self) -> bool {
        let mut b = self.file[1];
        while b != 0 {
            if !self.meet(b, 2) {
                return false;
            }
            let Some(link) = self.p.link(self.block(b)) else { return false };
            if self.block(b) != self.p.chained(link) {
                return false;
            }
            b = link;
        }
        true
    }

    fn never_used(&mut self) -> bool {
        let first = self.file[2];
        (1..=self.p.n + 1).contains(&first) && (first..=self.p.n).all(|b| self.meet(b, 3) && self.block(b).iter().all(|&x| x == 0))
    }
}
