//! Rows led by a key: the entries of master and index blocks, and the records of detail blocks.
use super::{Description, Use};

/// A place in some words where rows of `width` words begin, each led by a key of `k` words.
#[derive(Clone, Copy)]
pub struct Rows {
    pub at: usize,
    pub width: usize,
    pub k: usize,
}

impl Rows {
    pub fn row<'a>(&self, words: &'a [u32], j: usize) -> &'a [u32] {
        &words[self.at + j * self.width..self.at + (j + 1) * self.width]
    }

    pub fn key<'a>(&self, words: &'a [u32], j: usize) -> &'a [u32] {
        &self.row(words, j)[..self.k]
    }

    /// The word after an entry's key: the block it names.
    pub fn block(&self, words: &[u32], j: usize) -> u32 {
        self.row(words, j)[self.k]
    }

    /// The first of `count` rows whose key fits.
    pub fn first(&self, words: &[u32], count: usize, fits: impl Fn(&[u32]) -> bool) -> Option<usize> {
        (0..count).find(|&j| fits(self.key(words, j)))
    }

    pub fn set(&self, words: &mut [u32], j: usize, row: &[u32]) {
        words[self.at + j * self.width..self.at + (j + 1) * self.width].copy_from_slice(row);
    }

    pub fn set_key(&self, words: &mut [u32], j: usize, key: &[u32]) {
        let at = self.at + j * self.width;
        words[at..at + self.k].copy_from_slice(key);
    }

    /// Opens a place at `j` among `count` rows; the words after the rows stay as they are.
    pub fn insert(&self, words: &mut [u32], count: usize, j: usize, row: &[u32]) {
        words.copy_within(self.at + j * self.width..self.at + count * self.width, self.at + (j + 1) * self.width);
        self.set(words, j, row);
    }

    /// Closes the place at `j` among `count` rows; the place no longer taken becomes 0.
    pub fn remove(&self, words: &mut [u32], count: usize, j: usize) {
        words.copy_within(self.at + (j + 1) * self.width..self.at + count * self.width, self.at + j * self.width);
        words[self.at + (count - 1) * self.width..self.at + count * self.width].fill(0);
    }

    /// All `count` rows one after another.
    pub fn list(&self, words: &[u32], count: usize) -> Vec<Vec<u32>> {
        (0..count).map(|j| self.row(words, j).to_vec()).collect()
    }
}

/// A block of this kind written anew: word 0 for so many rows, these rows, and 0 elsewhere.
pub fn fresh(p: &Description, kind: Use, rows: &[Vec<u32>]) -> Vec<u32> {
    let mut words = vec![p.headed(kind, rows.len())];
    words.extend(rows.iter().flatten());
    words.resize(p.wpb(), 0);
    words
}
