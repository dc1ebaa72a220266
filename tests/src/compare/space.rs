//! The space of so many names: the archive's numbers compared with the rendering's, files of just that space filled by NSERT, and a run that
//! needs all of it.
use crate::archive;
use crate::both::{self, Differs, Tally};
use crate::limits;
use crate::plans::{any_count, session_words, NO_PLAN};
use crate::random::Random;
use crate::sessions;
use crate::state::{described, is_session, State};
use nasturakh_tests::rules::{Description, Kind, Space, Use, DONE, NOT_FOUND, STORED_FULL};

/// Any parameters, any number of names.
pub fn compare(r: &mut Random, tally: &mut Tally) -> Result<(), Differs> {
    let p = if r.once_in(2) { sessions::parameters(r) } else { limits::parameters(r) };
    let session = session_words(p, r);
    let names = any_count(r);
    let found = (archive::most_blocks(&session, names), archive::most_sections(&session, names));
    let asked = is_session(&session).then(|| described(&session)).filter(Description::in_range);
    *tally.plans.entry(if asked.is_some() { "space" } else { "no space" }).or_default() += 1;
    let none = u128::from(NO_PLAN);
    let wanted = asked.map(|p| Space::of(names, &p)).map_or((none, none), |s| (s.blocks(), s.sections));
    if (u128::from(found.0), u128::from(found.1)) == wanted {
        return Ok(());
    }
    Err(format!("blocks and sections of {names} names with session {session:?}: archive {found:?}, rendering {wanted:?}"))
}

/// Detail blocks and sections in use, by the file's words.
fn in_use(p: &Description, file: &[u32]) -> (u128, u128) {
    let index = |j: usize| p.start(file[3 + j * (p.k() + 1) + p.k()]);
    let none = p.headed(Use::Index, 0);
    let details: u32 = (0..file[0] as usize).map(|j| file[index(j)] - none).sum();
    (u128::from(details), u128::from(file[0]))
}

/// Both bounds, and no more blocks than the archive said of as many names.
fn holds(state: &State, names: u32, tally: &mut Tally) -> Result<(), Differs> {
    let p = state.description();
    let (details, sections) = in_use(&p, &state.lent.file);
    let most = (archive::most_blocks(&state.words, names), archive::most_sections(&state.words, names));
    let full = Space::half_full(&p, details, sections, u128::from(names) + 1);
    if details > 1 {
        *tally.plans.entry(if sections > 1 { "half full, sections" } else { "half full" }).or_default() += 1;
    }
    if full && details + sections <= u128::from(most.0) && sections <= u128::from(most.1) {
        return Ok(());
    }
    Err(format!("{names} names take {details} detail blocks and {sections} sections, parameters {p:?}, most {most:?}"))
}

/// A call that changes no number of records: a DLETE of a name that is not there, an UPDAT, or a CLOSE with an OPEN.
fn between(state: &mut State, r: &mut Random, tally: &mut Tally) -> Result<(), Differs> {
    match r.below(4) {
        0 => {
            state.lent.workspace[0] |= 1;
            both::call(Kind::Dlete, state, tally)?;
        }
        1 => {
            both::call(Kind::Close, state, tally)?;
            both::call(Kind::Open, state, tally)?;
        }
        _ => {
            both::call(r.one_of(&[Kind::Updat, Kind::Seek, Kind::Adv]), state, tally)?;
        }
    }
    Ok(())
}

/// A file with just the blocks and sections that the rendering says of so many names, filled with them: no NSERT lacks room. Names begin
/// with an even word, so that others are known.
pub fn filled(r: &mut Random, tally: &mut Tally) -> Result<(), Differs> {
    let names = r.between(1, 60);
    let p = sessions::parameters(r);
    let space = Space::of(names, &p);
    let p = Description { control: space.sections as u32, n: space.blocks() as u32, ..p };
    let mut state = State::new(p);
    both::call(Kind::Create, &mut state, tally)?;
    both::call(Kind::Open, &mut state, tally)?;
    let mut stored = 0;
    while stored < names {
        for word in state.lent.workspace.iter_mut() {
            *word = 2 * r.between(0, 3 * names);
        }
        if r.once_in(8) {
            between(&mut state, r, tally)?;
            continue;
        }
        let number = both::call(Kind::Nsert, &mut state, tally)?.number;
        if ![DONE, STORED_FULL, NOT_FOUND].contains(&number) {
            return Err(format!("NSERT answers {number:06o}, {stored} of {names} names stored, parameters {p:?}"));
        }
        stored += u32::from(number != NOT_FOUND);
        holds(&state, stored, tally)?;
    }
    Ok(())
}

/// Seven names at D 3 and I 3 that meet both bounds with equality, in the six blocks and two sections that are told for them.
pub fn stored(tally: &mut Tally) -> Result<(), Differs> {
    let p = Description { wpb: 8, wpr: 2, k: 1, space: 0, control: 2, n: 6, form: 1 };
    let mut state = State::new(p);
    let mut counts = vec![both::call(Kind::Create, &mut state, tally)?, both::call(Kind::Open, &mut state, tally)?];
    for record in [[10, 1], [20, 2], [30, 3], [15, 4], [12, 5], [17, 6], [18, 7]] {
        state.lent.workspace.copy_from_slice(&record);
        counts.push(both::call(Kind::Nsert, &mut state, tally)?);
    }
    counts.push(both::call(Kind::Close, &mut state, tally)?);
    let found: Vec<(u32, usize)> = counts.iter().map(|answer| (answer.number, answer.moves.len())).collect();
    let wanted = [0, 0, 2, 3, 7, 2, 7, 2, 8, 0].map(|moves| (DONE, moves));
    let used = in_use(&p, &state.lent.file);
    let told = (archive::most_blocks(&state.words, 7), archive::most_sections(&state.words, 7));
    let file = [
        [2, 0, 7, 17, 1, 262143, 6, 0],
        [2, 12, 2, 17, 4, 0, 0, 0],
        [2, 10, 1, 12, 5, 0, 0, 0],
        [2, 30, 3, 262143, 0, 0, 0, 0],
        [2, 15, 4, 17, 6, 0, 0, 0],
        [2, 18, 7, 20, 2, 0, 0, 0],
        [2, 20, 5, 262143, 3, 0, 0, 0],
    ];
    if found == wanted && used == (4, 2) && told == (6, 2) && state.lent.file == file.concat() {
        return Ok(());
    }
    Err(format!("seven names: {found:?}, in use {used:?}, told {told:?}, file {:?}", state.lent.file))
}
