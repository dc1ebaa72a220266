//! The fifteen lines of document 01, by the archive in both block forms, and by the rendering of the printed program.
use crate::both::{self, Differs, Tally};
use crate::state::State;
use nasturakh_tests::printed::printed;
use nasturakh_tests::rules::{Description, Kind};

const INPUT: &str = "8 3 1 0 2 4\nCREATE\nOPEN\nNSERT 10 1 2\nNSERT 20 3 4\nNSERT 5 7 7\nNSERT 15 6 6\nNSERT 12 0 0\nDLETE 5\nDLETE 10\nXTEND 30 8 9\nXTEND 25 0 0\nSEEK 20\nADV\nADV\nCLOSE\n";

/// Kind, the words carried, number, transfers, and the workspace where the program prints it.
type Line = (Kind, &'static [u32], u32, usize, &'static [u32]);

const LINES: [Line; 15] = [
    (Kind::Create, &[], 0, 0, &[]),
    (Kind::Open, &[], 0, 0, &[]),
    (Kind::Nsert, &[10, 1, 2], 0, 2, &[]),
    (Kind::Nsert, &[20, 3, 4], 0, 7, &[]),
    (Kind::Nsert, &[5, 7, 7], 0o070001, 6, &[]),
    (Kind::Nsert, &[15, 6, 6], 0o070001, 2, &[]),
    (Kind::Nsert, &[12, 0, 0], 0o070002, 3, &[]),
    (Kind::Dlete, &[5], 0, 2, &[]),
    (Kind::Dlete, &[10], 0, 3, &[]),
    (Kind::Xtend, &[30, 8, 9], 0, 3, &[]),
    (Kind::Xtend, &[25, 0, 0], 0o5, 0, &[]),
    (Kind::Seek, &[20], 0, 3, &[20, 3, 4]),
    (Kind::Adv, &[], 0, 3, &[30, 8, 9]),
    (Kind::Adv, &[], 0o030002, 0, &[262143, 0, 0]),
    (Kind::Close, &[], 0, 0, &[]),
];

fn shown(line: &Line) -> String {
    let (kind, _, number, transfers, workspace) = line;
    let words: String = workspace.iter().map(|w| format!(" {w}")).collect();
    format!("{} {number:06o} {transfers}{words}\n", format!("{kind:?}").to_uppercase())
}

/// Block 1 after the third NSERT, as document 01 gives it, and in the second form.
const BLOCK_ONE: [[u32; 8]; 2] = [[3, 10, 2, 20, 4, 262143, 3, 0], [4099, 10, 2, 20, 4, 262143, 3, 0]];

fn play(form: u32, tally: &mut Tally) -> Result<(), Differs> {
    let mut state = State::new(Description { wpb: 8, wpr: 3, k: 1, space: 0, control: 2, n: 4, form });
    for (j, line) in LINES.iter().enumerate() {
        let (kind, carried, number, transfers, workspace) = *line;
        state.lent.workspace[..carried.len()].copy_from_slice(carried);
        let answer = both::call(kind, &mut state, tally)?;
        let same = answer.number == number && answer.moves.len() == transfers && (workspace.is_empty() || state.lent.workspace == workspace);
        if !same || (j == 4 && state.lent.file[8..16] != BLOCK_ONE[form as usize - 1]) {
            return Err(format!("line {} of the fifteen in form {form} is not as document 01 prints it: {answer:?}", j + 1));
        }
    }
    Ok(())
}

pub fn compare(tally: &mut Tally) -> Result<(), Differs> {
    play(1, tally)?;
    play(2, tally)?;
    let expected: String = LINES.iter().map(shown).collect();
    if printed(INPUT.as_bytes()) != expected.as_bytes() {
        return Err("the printed program's rendering does not print the fifteen lines".to_string());
    }
    Ok(())
}
