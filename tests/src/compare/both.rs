//! One call made by the archive and by the rendering, and what each left compared.
use crate::archive;
use crate::state::State;
use nasturakh_tests::rules::{Answer, Event, Kind};
use std::collections::BTreeMap;

/// How often each number and each event occurred, each part of VIEW, each answer to a plan, a copy and a turn, and what became of wrong kinds.
#[derive(Default)]
pub struct Tally {
    pub calls: u64,
    pub numbers: BTreeMap<(u32, Kind), u64>,
    pub events: BTreeMap<Event, u64>,
    pub views: BTreeMap<&'static str, u64>,
    pub plans: BTreeMap<&'static str, u64>,
    pub copies: BTreeMap<u32, u64>,
    pub turns: BTreeMap<u32, u64>,
    pub kinds: BTreeMap<&'static str, u64>,
}

/// A difference, described.
pub type Differs = String;

fn unequal<T: PartialEq + std::fmt::Debug>(what: &str, archive: &[T], rendering: &[T], report: &mut String) {
    if archive.len() != rendering.len() {
        report.push_str(&format!("{what}: archive has {} words, rendering {}\n", archive.len(), rendering.len()));
    }
    for (j, (a, r)) in archive.iter().zip(rendering).enumerate().filter(|(_, (a, r))| a != r).take(12) {
        report.push_str(&format!("{what} word {j}: archive {a:?}, rendering {r:?}\n"));
    }
}

fn described(kind: Kind, before: &State) -> String {
    let p = before.words.get(..6);
    format!(
        "{kind:?}, parameters {p:?}\nsession before {:?}\nfile before {:?}\nbuffer before {:?}\nworkspace before {:?}\nmarks before {:?}\n",
        before.words, before.lent.file, before.lent.buffer, before.lent.workspace, before.lent.marks
    )
}

/// Makes the call both ways; the state is then what both left.
pub fn call(kind: Kind, state: &mut State, tally: &mut Tally) -> Result<Answer, Differs> {
    let before = state.clone();
    let mut proved = state.clone();
    let packed = archive::call(kind, &mut proved);
    let answer = state.call(kind);
    let expected = ((answer.moves.len() as u64) << 32) + answer.number as u64;
    if packed == expected && proved == *state {
        count(kind, &answer, tally);
        return Ok(answer);
    }
    let mut report = described(kind, &before);
    report.push_str(&format!("archive answers {:06o} with {} transfers\n", packed as u32, packed >> 32));
    report.push_str(&format!("rendering answers {:06o} with {} transfers {:?}\n", answer.number, answer.moves.len(), answer.moves));
    unequal("session", &proved.words, &state.words, &mut report);
    unequal("file", &proved.lent.file, &state.lent.file, &mut report);
    unequal("buffer", &proved.lent.buffer, &state.lent.buffer, &mut report);
    unequal("workspace", &proved.lent.workspace, &state.lent.workspace, &mut report);
    unequal("marks", &proved.lent.marks, &state.lent.marks, &mut report);
    Err(report)
}

fn count(kind: Kind, answer: &Answer, tally: &mut Tally) {
    tally.calls += 1;
    *tally.numbers.entry((answer.number, kind)).or_default() += 1;
    for event in &answer.events {
        *tally.events.entry(*event).or_default() += 1;
    }
}

pub fn view(block: usize, state: &State, tally: &mut Tally) -> Result<(), Differs> {
    let (a, r) = (archive::view(state, block), state.view(block));
    let kind = match r >> 32 {
        0 if r != 0 => "refused",
        0 => "empty",
        1 => "file",
        _ => "buffer",
    };
    *tally.views.entry(kind).or_default() += 1;
    if a == r {
        return Ok(());
    }
    Err(format!("VIEW of block {block}: archive {a}, rendering {r}\n{}", described(Kind::Close, state)))
}
