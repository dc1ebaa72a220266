//! The name register, request 11 of document 02: what an editor asks of a name, by the routine's own calls.
use super::*;

pub const RAW: u32 = 0;
pub const ROMANISED: u32 = 1;
pub const HELD: u32 = 2;

/// What is asked of a name.
#[derive(Clone, Debug, PartialEq, Eq)]
pub enum Deed {
    Enter,
    Ask,
    Romanise(Vec<u32>),
    Hold,
    Free,
}

impl Session {
    /// The first refusal of a register call before the routine is asked: of the sizes, a closed session, the words of key and spelling.
    fn name_refused(&self, l: &Lent, spelling: Option<&[u32]>) -> Option<u32> {
        let p = &self.p;
        let long = spelling.is_none_or(|words| words.len() as u64 + p.k as u64 + 1 == p.wpr as u64);
        if p.wpr <= p.k || !long || !self.sizes_fit(l) || l.workspace.len() != p.wpr() {
            return Some(WRONG_SIZE);
        }
        if !self.open {
            return Some(CLOSED);
        }
        let key = &l.workspace[..p.k()];
        let given = spelling.unwrap_or(&[]);
        let bad = key.iter().chain(given).any(|&word| word > ONES) || key.iter().all(|&word| word == ONES);
        bad.then_some(BAD_WORD)
    }

    /// SEEK, and where the name is found in the state `from`, UPDAT with the state `to` and the spelling given, or else its own.
    fn moved(&mut self, l: &mut Lent, from: u32, to: u32, spelling: Option<&[u32]>) -> Answer {
        let k = self.p.k();
        let mut answer = self.seek(l);
        if answer.number != DONE {
            return answer;
        }
        if l.workspace[k] != from {
            answer.number = NOT_ALLOWED;
            return answer;
        }
        if spelling.is_none() && l.workspace[k + 1..].iter().any(|&word| word > ONES) {
            answer.number = BAD_WORD;
            return answer;
        }
        l.workspace[k] = to;
        if let Some(words) = spelling {
            l.workspace[k + 1..].copy_from_slice(words);
        }
        let stored = self.updat(l);
        answer.number = stored.number;
        answer.moves.extend(stored.moves);
        answer
    }

    /// Does what is asked of the name in the workspace.
    pub fn register(&mut self, deed: &Deed, l: &mut Lent) -> Answer {
        let spelling = if let Deed::Romanise(words) = deed { Some(&words[..]) } else { None };
        if let Some(number) = self.name_refused(l, spelling) {
            return Answer::refused(number);
        }
        match deed {
            Deed::Enter => {
                l.workspace[self.p.k()..].fill(0);
                self.nsert(l)
            }
            Deed::Ask => self.seek(l),
            Deed::Romanise(_) => self.moved(l, RAW, ROMANISED, spelling),
            Deed::Hold => self.moved(l, ROMANISED, HELD, None),
            Deed::Free => self.moved(l, HELD, ROMANISED, None),
        }
    }
}
