//! The state as the archive knows it: the session is 73 lent words, or 74, of which the last is the block form.
use nasturakh_tests::rules::register::Deed;
use nasturakh_tests::rules::{Answer, Description, Kind, Lent, Part, Session, WRONG_SIZE};

pub const SESSION_WORDS: usize = 73;
/// The place of the block form, in a session of one word more.
pub const FORM: usize = 73;

#[derive(Clone, Debug, PartialEq, Eq)]
pub struct State {
    pub words: Vec<u32>,
    pub lent: Lent,
}

impl State {
    pub fn new(p: Description) -> State {
        let lent = Lent { file: vec![0; p.file_size()], buffer: vec![0; p.wpb()], workspace: vec![0; p.wpr()], marks: vec![0; p.n as usize] };
        State { words: encode(&Session::new(p), p.form != 1), lent }
    }

    /// The same state, its form in a word of its own.
    pub fn with_form(mut self) -> State {
        if self.words.len() == SESSION_WORDS {
            self.words.push(1);
        }
        self
    }

    pub fn description(&self) -> Description {
        described(&self.words)
    }

    /// The rendering's answer, and what it leaves.
    pub fn call(&mut self, kind: Kind) -> Answer {
        let Some(mut session) = decode(&self.words) else { return Answer::refused(WRONG_SIZE) };
        let answer = session.call(kind, &mut self.lent);
        self.words = encode(&session, self.words.len() > SESSION_WORDS);
        answer
    }

    /// The rendering's turn to the other form, which must have its word.
    pub fn turn(&mut self) -> Answer {
        let Some(mut session) = decode(&self.words).filter(|_| self.words.len() > SESSION_WORDS) else { return Answer::refused(WRONG_SIZE) };
        let answer = session.turn(&mut self.lent.file, &mut self.lent.marks);
        self.words = encode(&session, true);
        answer
    }

    /// The rendering's answer of the register, and what it leaves.
    pub fn register(&mut self, deed: &Deed) -> Answer {
        let Some(mut session) = decode(&self.words) else { return Answer::refused(WRONG_SIZE) };
        let answer = session.register(deed, &mut self.lent);
        self.words = encode(&session, self.words.len() > SESSION_WORDS);
        answer
    }

    /// The rendering's copy into a second file.
    pub fn copy(&mut self, second: &mut [u32], control: usize) -> Answer {
        let Some(session) = decode(&self.words) else { return Answer::refused(WRONG_SIZE) };
        session.copy(&self.lent.file, second, control, &mut self.lent.marks)
    }

    /// The rendering's tray: its number; told are the transfers and how many were stored.
    pub fn tray(&mut self, tray: &[u32], told: &mut [u64]) -> u32 {
        let Some(mut session) = decode(&self.words) else { return WRONG_SIZE };
        let [transfers, stored] = told else { return WRONG_SIZE };
        let trayed = session.nsert_tray(&mut self.lent, tray);
        (*transfers, *stored) = (trayed.moves.len() as u64, trayed.stored as u64);
        self.words = encode(&session, self.words.len() > SESSION_WORDS);
        trayed.number
    }

    pub fn view(&self, block: usize) -> u64 {
        let Some(session) = decode(&self.words) else { return WRONG_SIZE as u64 };
        match session.view(&self.lent, block) {
            Part::Empty => 0,
            Part::File(place) => (1 << 32) + place as u64,
            Part::Buffer => 1 << 33,
        }
    }
}

/// Whether a slice is a session's: one of the two lengths, and three words that say yes or no.
pub fn is_session(words: &[u32]) -> bool {
    matches!(words.len(), 73 | 74) && [6, 8, 9].iter().all(|&j| words[j] <= 1)
}

/// The parameters in these words; without a word for it the form is the first.
pub fn described(words: &[u32]) -> Description {
    Description { form: words.get(FORM).copied().unwrap_or(1), ..Description::from_words(words) }
}

fn decode(words: &[u32]) -> Option<Session> {
    if !is_session(words) {
        return None;
    }
    Some(Session {
        p: described(words),
        open: words[6] == 1,
        current: words[7],
        flag: words[8] == 1,
        given: words[9] == 1,
        position: words[10..SESSION_WORDS].try_into().expect("63 words"),
    })
}

fn encode(s: &Session, with_form: bool) -> Vec<u32> {
    let p = s.p;
    let mut words = vec![p.wpb, p.wpr, p.k, p.space, p.control, p.n, s.open as u32, s.current, s.flag as u32, s.given as u32];
    words.extend(s.position);
    words.extend(with_form.then_some(p.form));
    words
}
