//! "More sections": the call that copies a file into a second one with another CONTROL.
use super::*;

impl Session {
    /// The session, its file and all that is not named stay as they are.
    pub fn copy(&self, file: &[u32], second: &mut [u32], control: usize, marks: &mut [u8]) -> Answer {
        let Ok(new) = u32::try_from(control) else { return Answer::refused(WRONG_SIZE) };
        let (p, q) = (self.p, Description { control: new, ..self.p });
        if !p.in_range() || file.len() != p.file_size() || marks.len() != p.n as usize {
            return Answer::refused(WRONG_SIZE);
        }
        if !q.in_range() || second.len() != q.file_size() || control < file[0] as usize {
            return Answer::refused(WRONG_SIZE);
        }
        if self.open {
            return Answer::refused(ALREADY_OPEN);
        }
        let Some(found) = inspect(&p, file) else {
            marks.fill(0);
            return Answer::refused(BAD_FILE);
        };
        marks.copy_from_slice(&found);
        second.fill(0);
        second[..3].copy_from_slice(&file[..3]);
        for entry in (0..file[0] as usize).map(|j| 3 + j * (p.k() + 1)) {
            second[entry..=entry + p.k()].copy_from_slice(&file[entry..=entry + p.k()]);
        }
        for block in 1..=p.n {
            second[q.start(block)..][..q.wpb()].copy_from_slice(&file[p.start(block)..][..p.wpb()]);
        }
        Answer::refused(DONE)
    }
}
