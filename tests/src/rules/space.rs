use super::Description;

/// "the number of .. blocks, if more than one, times [half a block] is at most [the rows]": how many there can be.
fn most(rows: u128, half: usize) -> u128 {
    let half = half as u128;
    if 2 * half > rows {
        return 1;
    }
    rows / half
}

/// What names put in by NSERT alone, in any order, can take.
#[derive(Clone, Copy, Debug, PartialEq, Eq)]
pub struct Space {
    pub details: u128,
    pub sections: u128,
}

impl Space {
    /// Detail blocks against records, "the end record counted"; "likewise index blocks .. against detail blocks".
    pub fn of(names: u32, p: &Description) -> Space {
        let details = most(u128::from(names) + 1, p.d().div_ceil(2));
        Space { details, sections: most(details, p.i().div_ceil(2)) }
    }

    pub fn blocks(&self) -> u128 {
        self.details + self.sections
    }

    /// Both bounds, of blocks in use and records, "the end record counted".
    pub fn half_full(p: &Description, details: u128, sections: u128, records: u128) -> bool {
        let (hd, hi) = (p.d().div_ceil(2) as u128, p.i().div_ceil(2) as u128);
        (details <= 1 || hd * details <= records) && (sections <= 1 || hi * sections <= details)
    }
}
