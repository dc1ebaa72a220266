//! The keys a session draws on.
use crate::random::Random;
use nasturakh_tests::rules::{Description, Kind, DONE, ONES, STORED_FULL};

/// Keys of a session: few enough that they are met again, spread over all key words.
#[derive(Clone)]
pub struct Keys {
    pub k: usize,
    base: u32,
    stored: Vec<Vec<u32>>,
}

impl Keys {
    pub fn new(p: &Description, r: &mut Random) -> Keys {
        let base = match p.k {
            1 => r.one_of(&[8, 40, 160, 900]),
            2 => r.one_of(&[3, 6, 12, 30]),
            _ => r.one_of(&[2, 3, 5, 9]),
        };
        Keys { k: p.k(), base, stored: Vec::new() }
    }

    pub const SMALL: u32 = 4;

    pub fn small(p: &Description) -> Keys {
        Keys { k: p.k(), base: Keys::SMALL, stored: Vec::new() }
    }

    /// A key of those stored, or any of the session's.
    pub fn any(&self, r: &mut Random) -> Vec<u32> {
        if !self.stored.is_empty() && r.once_in(2) {
            return self.stored[r.below(self.stored.len())].clone();
        }
        (0..self.k).map(|_| r.between(0, self.base)).collect()
    }

    /// The highest key stored.
    pub fn highest(&self) -> Vec<u32> {
        self.stored.iter().max().cloned().unwrap_or(vec![0; self.k])
    }

    /// A key about the highest stored, as XTEND wants them.
    pub fn high(&self, r: &mut Random) -> Vec<u32> {
        let mut key = self.highest();
        let j = r.below(self.k);
        key[j] = (key[j] + r.between(0, 3)).min(ONES);
        key
    }

    /// What an answer tells of the keys stored.
    pub fn learn(&mut self, kind: Kind, number: u32, key: &[u32]) {
        let stored = number == DONE || number == STORED_FULL;
        match kind {
            Kind::Nsert | Kind::Xtend if stored => self.stored.push(key.to_vec()),
            Kind::Dlete if stored => self.stored.retain(|other| other != key),
            Kind::Create => self.stored.clear(),
            _ => (),
        }
    }
}
