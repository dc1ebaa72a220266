//! The same session in both block forms: the same answers, and files that are one another turned.
use crate::both::Differs;
use crate::state::{State, FORM};
use nasturakh_tests::rules::{Answer, Description, Kind, Session, DONE};

/// The session in the other form, made by the rendering alone.
pub struct Twin {
    state: State,
}

impl Twin {
    pub fn of(p: Description) -> Twin {
        Twin { state: State::new(Description { form: 3 - p.form, ..p }).with_form() }
    }

    /// Makes the call too: the same number, transfers and workspace, and the same session but for the form.
    pub fn follow(&mut self, kind: Kind, work: &[u32], answer: &Answer, state: &State) -> Result<(), Differs> {
        self.state.lent.workspace.copy_from_slice(work);
        let other = self.state.call(kind);
        let same = other == *answer && self.state.words[..FORM] == state.words[..FORM];
        if same && self.state.lent.workspace == state.lent.workspace && self.state.lent.marks == state.lent.marks {
            return Ok(());
        }
        Err(format!("{kind:?} {work:?} in both forms: {answer:?} and {other:?}\n{state:?}\n{:?}", self.state))
    }

    /// The file of each form is that of the other turned, wherever there is a good one.
    pub fn turned(&self, state: &State) -> Result<(), Differs> {
        for (from, to) in [(state, &self.state), (&self.state, state)] {
            let mut session = Session::new(from.description());
            let mut file = from.lent.file.clone();
            let number = session.turn(&mut file, &mut from.lent.marks.clone()).number;
            if number == DONE && (session.p != to.description() || file != to.lent.file) {
                return Err(format!("turned the file is {file:?}, and not {:?}", to.lent.file));
            }
        }
        Ok(())
    }
}
