//! "Forty inserts at once": the call that inserts a lent run, a count word and then the records.
use super::*;

/// How many were stored, the last number, and the transfers of all.
pub struct Trayed {
    pub stored: usize,
    pub number: u32,
    pub moves: Vec<Move>,
}

impl Session {
    /// "stops after the first answer that is neither 0 nor 070001"; the workspace is not touched.
    pub fn nsert_tray(&mut self, l: &mut Lent, tray: &[u32]) -> Trayed {
        let mut trayed = Trayed { stored: 0, number: DONE, moves: Vec::new() };
        let matches = tray.first().is_some_and(|&count| tray.len() as u128 == 1 + u128::from(count) * self.p.wpr() as u128);
        if !self.sizes_fit(l) || !matches {
            return Trayed { number: WRONG_SIZE, ..trayed };
        }
        if !self.open {
            return Trayed { number: CLOSED, ..trayed };
        }
        for record in tray[1..].chunks_exact(self.p.wpr()) {
            let workspace = std::mem::replace(&mut l.workspace, record.to_vec());
            let answer = self.nsert(l);
            l.workspace = workspace;
            trayed.number = answer.number;
            trayed.moves.extend(answer.moves);
            if answer.number != DONE && answer.number != STORED_FULL {
                break;
            }
            trayed.stored += 1;
        }
        trayed
    }
}
