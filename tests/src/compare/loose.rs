//! Files in which each number is in its range, and nothing else holds: blocks may be current, chained and in use at once, and, where they do
//! not say their kind, index and detail.
use crate::keys::Keys;
use crate::random::Random;
use crate::sessions;
use crate::state::{State, FORM};
use nasturakh_tests::rules::{Description, Use, ONES};

struct Maker<'a> {
    p: &'a Description,
    /// Blocks named are 1 to this.
    blocks: u32,
    /// The kind of each block.
    kinds: Vec<Use>,
    base: u32,
    r: &'a mut Random,
}

/// A kind of block, more often one that is used.
fn any_use(r: &mut Random) -> Use {
    r.one_of(&[Use::Free, Use::Index, Use::Index, Use::Detail, Use::Detail, Use::Detail, Use::Detail])
}

impl Maker<'_> {
    fn key(&mut self) -> Vec<u32> {
        (0..self.p.k()).map(|_| self.r.between(0, self.base)).collect()
    }

    /// Keys of `count` rows: most often ascending, and the last most often ONES.
    fn keys(&mut self, count: usize, ones: usize) -> Vec<Vec<u32>> {
        let mut keys: Vec<Vec<u32>> = (0..count).map(|_| self.key()).collect();
        if !self.r.once_in(4) {
            keys.sort();
        }
        if !self.r.once_in(ones) {
            keys[count - 1] = vec![ONES; self.p.k()];
        }
        keys
    }

    fn count(&mut self, most: usize) -> usize {
        match self.r.below(3) {
            0 => 1,
            1 => most,
            _ => 1 + self.r.below(most),
        }
    }

    /// A block to be used so; where blocks say their kind, most often one of this kind.
    fn named(&mut self, kind: Use) -> u32 {
        let any = self.r.between(1, self.blocks);
        let fitting = (1..=self.blocks).map(|ahead| (any + ahead - 1) % self.blocks + 1).find(|&b| self.kinds[b as usize - 1] == kind);
        match fitting {
            Some(b) if self.p.form == 2 && !self.r.once_in(8) => b,
            _ => any,
        }
    }

    /// Entries for blocks to be used so, and their count.
    fn entries(&mut self, most: usize, kind: Use) -> (usize, Vec<u32>) {
        let count = self.count(most);
        let mut words = Vec::new();
        for key in self.keys(count, 4) {
            words.extend(key);
            words.push(self.named(kind));
        }
        (count, words)
    }

    fn records(&mut self) -> (usize, Vec<u32>) {
        let count = self.count(self.p.d());
        let mut words = Vec::new();
        for key in self.keys(count, 2) {
            words.extend(key);
            words.extend((self.p.k()..self.p.wpr()).map(|_| self.r.between(0, 9)));
        }
        (count, words)
    }

    /// Word 0 and the rows of an index or detail block.
    fn headed(&mut self, kind: Use) -> Vec<u32> {
        let (count, rows) = if kind == Use::Index { self.entries(self.p.i(), Use::Detail) } else { self.records() };
        let mut words = vec![self.p.headed(kind, count)];
        words.extend(rows);
        words
    }

    /// A free block's link: none, or a block.
    fn link(&mut self) -> u32 {
        match self.r.below(3) {
            0 => 0,
            _ => self.named(Use::Free),
        }
    }

    /// A block of this kind; the words that belong to no item are not always 0.
    fn block(&mut self, kind: Use) -> Vec<u32> {
        let mut words = match kind {
            Use::Free => {
                let link = self.link();
                self.p.chained(link)[..self.p.form as usize].to_vec()
            }
            _ => self.headed(kind),
        };
        let rest = if self.r.once_in(3) { 0 } else { self.r.between(0, ONES) };
        words.resize(self.p.wpb(), rest);
        words
    }

    fn file(&mut self) -> Vec<u32> {
        let (sections, entries) = self.entries(self.p.control as usize, Use::Index);
        let never = self.r.one_of(&[1, self.blocks, self.p.n, self.p.n + 1, self.p.n + 1]);
        let mut file = vec![sections as u32, self.link(), never];
        file.extend(entries);
        file.resize(self.p.master(), 0);
        for kind in self.kinds.clone() {
            file.extend(self.block(kind));
        }
        file
    }
}

/// Parameters with small blocks, and a state made up of words in range.
pub fn state(r: &mut Random) -> (Description, Keys, State) {
    let p = loop {
        let p = sessions::parameters(r);
        if p.d() < 6 && p.n < 12 {
            break p;
        }
    };
    let keys = Keys::small(&p);
    let mut state = State::new(p);
    let blocks = r.between(2, p.n);
    let kinds = (0..p.n).map(|_| any_use(r)).collect();
    let mut maker = Maker { p: &p, blocks, kinds, base: Keys::SMALL, r };
    state.lent.file = maker.file();
    let held = any_use(maker.r);
    state.lent.buffer = maker.block(held);
    let position = maker.key();
    let current = r.between(0, blocks);
    if current > 0 && r.once_in(3) {
        state.lent.buffer = state.lent.file[p.start(current)..p.start(current) + p.wpb()].to_vec();
    }
    state.words[6..10].copy_from_slice(&[1, current, r.between(0, 1), r.between(0, 1)]);
    state.words[10..10 + p.k()].copy_from_slice(&position);
    state.words[10 + p.k()..FORM].fill(r.between(0, 1));
    (p, keys, state)
}
