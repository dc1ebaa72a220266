use super::{Description, Kind};

/// A planned session: the most calls of each kind, and the most records that NSERT and XTEND put in.
#[derive(Clone, Copy, Debug, Default, PartialEq, Eq)]
pub struct Plan {
    pub seek: u32,
    pub updat: u32,
    pub nsert: u32,
    pub adv: u32,
    pub dlete: u32,
    pub xtend: u32,
    pub close: u32,
    pub records: u32,
}

/// How many blocks can be paid for, where each costs this many.
fn paid(all: u128, each: usize) -> u128 {
    all / each as u128
}

impl Plan {
    /// "The session formula": the largest sum of transfers that its five lines allow.
    pub fn most_transfers(&self, p: &Description) -> u128 {
        let [seek, updat, nsert, adv, dlete, xtend, close, m] =
            [self.seek, self.updat, self.nsert, self.adv, self.dlete, self.xtend, self.close, self.records].map(u128::from);
        let (hd, hi) = (p.d().div_ceil(2), p.i().div_ceil(2));
        // "hD·S ≤ M, FD·X ≤ M, hI·s ≤ S+X, FI·x ≤ S+X"
        let details = paid(m, hd) + paid(m, p.fd());
        let indexes = paid(details, hi) + paid(details, p.fi());
        3 * (seek + updat + nsert) + 5 * adv + 6 * dlete + 6 * xtend + close + 4 * details + indexes
    }

    /// Counts a call that was made, and the record that it stored.
    pub fn count(&mut self, kind: Kind, stored: bool) {
        match kind {
            Kind::Seek => self.seek += 1,
            Kind::Updat => self.updat += 1,
            Kind::Nsert => self.nsert += 1,
            Kind::Adv => self.adv += 1,
            Kind::Dlete => self.dlete += 1,
            Kind::Xtend => self.xtend += 1,
            Kind::Close => self.close += 1,
            Kind::Create | Kind::Open => {}
        }
        self.records += u32::from(stored && matches!(kind, Kind::Nsert | Kind::Xtend));
    }
}
