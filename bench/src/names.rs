//! The names of a run, the same in every run and for every engine.
pub const WPB: usize = 1792;
pub const WPR: usize = 50;
pub const K: usize = 5;
pub const LOADED: usize = 60_000;
pub const SOUGHT: usize = 60_000;
pub const CHANGED: usize = 6_000;

const ONES: u32 = 262_143;

pub type Record = [u32; WPR];

/// A record with its key as bytes too, in the order that compares as the words do.
#[derive(Clone)]
pub struct Name {
    pub record: Record,
    pub bytes: [u8; 4 * K],
}

/// splitmix64, with a fixed seed.
pub struct Random(u64);

impl Random {
    pub fn new() -> Self {
        Self(1969)
    }

    pub fn below(&mut self, n: usize) -> usize {
        self.0 = self.0.wrapping_add(0x9e37_79b9_7f4a_7c15);
        let mut z = self.0;
        z = (z ^ (z >> 30)).wrapping_mul(0xbf58_476d_1ce4_e5b9);
        z = (z ^ (z >> 27)).wrapping_mul(0x94d0_49bb_1331_11eb);
        ((u128::from(z ^ (z >> 31)) * n as u128) >> 64) as usize
    }
}

/// What a run does, each list in the order of its calls, so that looking a name up there costs next to nothing.
pub struct Work {
    pub loaded: Vec<Name>,
    pub sought: Vec<Name>,
    pub fresh: Vec<Name>,
    pub struck: Vec<Name>,
}

/// A record of random words; where names are alike, the first two words are those of every other name.
fn random_record(random: &mut Random, alike: bool) -> Record {
    let mut record = [0; WPR];
    for word in &mut record {
        *word = random.below(ONES as usize) as u32;
    }
    if alike {
        record[..2].copy_from_slice(&[1, 2]);
    }
    record
}

fn name(record: Record) -> Name {
    let mut bytes = [0; 4 * K];
    for (i, word) in record[..K].iter().enumerate() {
        bytes[4 * i..4 * i + 4].copy_from_slice(&word.to_be_bytes());
    }
    Name { record, bytes }
}

fn shuffle<T>(random: &mut Random, items: &mut [T]) {
    for i in (1..items.len()).rev() {
        items.swap(i, random.below(i + 1));
    }
}

impl Work {
    pub fn new(alike: bool) -> Self {
        let mut random = Random::new();
        let mut records: Vec<Record> = Vec::new();
        while records.len() < LOADED + CHANGED {
            let missing = LOADED + CHANGED - records.len();
            records.extend((0..missing).map(|_| random_record(&mut random, alike)));
            records.sort_unstable();
            records.dedup_by_key(|r| <[u32; K]>::try_from(&r[..K]).expect("K words"));
        }
        shuffle(&mut random, &mut records);
        let mut names: Vec<Name> = records.into_iter().map(name).collect();
        let mut struck = names.clone();
        shuffle(&mut random, &mut struck);
        struck.truncate(CHANGED);
        let fresh = names.split_off(LOADED);
        names.sort_unstable_by_key(|n| n.bytes);
        let sought = (0..SOUGHT).map(|_| names[random.below(LOADED)].clone());
        Self {
            sought: sought.collect(),
            loaded: names,
            fresh,
            struck,
        }
    }
}
