/// "Parameters": the six numbers of a file with its block form, and the sizes that follow from them.
#[derive(Clone, Copy, Debug, PartialEq, Eq)]
pub struct Description {
    pub wpb: u32,
    pub wpr: u32,
    pub k: u32,
    pub space: u32,
    pub control: u32,
    pub n: u32,
    pub form: u32,
}

/// What a block can be, once it is used.
#[derive(Clone, Copy, Debug, PartialEq, Eq)]
pub enum Use {
    Index,
    Detail,
    Free,
}

impl Description {
    /// The six numbers alone mean the first form.
    pub fn from_words(w: &[u32]) -> Description {
        Description { wpb: w[0], wpr: w[1], k: w[2], space: w[3], control: w[4], n: w[5], form: 1 }
    }

    pub fn in_range(&self) -> bool {
        let ranges = self.wpb % 2 == 0
            && (6..=4096).contains(&self.wpb)
            && (1..=63).contains(&self.k)
            && self.wpr >= self.k
            && (1..=16383).contains(&self.control)
            && (2..=262142).contains(&self.n)
            && (self.form == 1 || self.form == 2);
        ranges && self.d() >= 2 && self.i() >= 2 && self.space as usize <= self.d() - 2 && self.space as usize <= self.i() - 2
    }

    pub fn k(&self) -> usize {
        self.k as usize
    }

    pub fn wpr(&self) -> usize {
        self.wpr as usize
    }

    pub fn wpb(&self) -> usize {
        self.wpb as usize
    }

    /// Records a detail block can hold.
    pub fn d(&self) -> usize {
        (self.wpb() - 1) / self.wpr()
    }

    /// Entries an index block can hold.
    pub fn i(&self) -> usize {
        (self.wpb() - 1) / (self.k() + 1)
    }

    pub fn fd(&self) -> usize {
        self.d() - self.space as usize
    }

    pub fn fi(&self) -> usize {
        self.i() - self.space as usize
    }

    pub fn master(&self) -> usize {
        (3 + self.control as usize * (self.k() + 1)).div_ceil(2) * 2
    }

    pub fn file_size(&self) -> usize {
        self.master() + self.n as usize * self.wpb()
    }

    /// Where block `b` starts in the file.
    pub fn start(&self, b: u32) -> usize {
        self.master() + (b as usize - 1) * self.wpb()
    }

    pub fn is_block(&self, b: u32) -> bool {
        (1..=self.n).contains(&b)
    }

    /// Word 0 of an index or detail block with this count. The second form counts from 4096 or 8192 on.
    pub fn headed(&self, kind: Use, count: usize) -> u32 {
        let first = match (self.form, kind) {
            (1, _) => 0,
            (_, Use::Index) => 4096,
            (_, Use::Detail) => 8192,
            (_, Use::Free) => 12288,
        };
        first + count as u32
    }

    /// The count that word 0 of a block of this kind tells, if it is 1 to `most`; none where the second form's word is of another kind.
    pub fn counted(&self, kind: Use, word: u32, most: usize) -> Option<usize> {
        let (one, all) = (self.headed(kind, 1), self.headed(kind, most));
        (one..=all).contains(&word).then(|| (word - one) as usize + 1)
    }

    /// A free block: the link in word 0, or 12288 and the link in word 1; 0 elsewhere.
    pub fn chained(&self, link: u32) -> Vec<u32> {
        let mut words = if self.form == 1 { vec![link] } else { vec![self.headed(Use::Free, 0), link] };
        words.resize(self.wpb(), 0);
        words
    }

    /// The link of a free block; none where the second form's word 0 does not say that it is free.
    pub fn link(&self, text: &[u32]) -> Option<u32> {
        match self.form {
            1 => Some(text[0]),
            _ => (text[0] == self.headed(Use::Free, 0)).then(|| text[1]),
        }
    }
}
