//! "Blocks that say what they are": the call that turns a closed file from one block form to the other.
use super::rows::Rows;
use super::*;

/// Each block of a good file that is used, once, with what it is used for: by way of the master, and by the chain.
fn used(p: &Description, file: &[u32]) -> Vec<(u32, Use)> {
    let text = |b: u32| &file[p.start(b)..p.start(b) + p.wpb()];
    let entries = |at: usize| Rows { at, width: p.k() + 1, k: p.k() };
    let mut blocks = Vec::new();
    for section in 0..file[0] as usize {
        let index = entries(3).block(file, section);
        let count = p.counted(Use::Index, text(index)[0], p.i()).expect("a good file");
        blocks.push((index, Use::Index));
        blocks.extend((0..count).map(|j| (entries(1).block(text(index), j), Use::Detail)));
    }
    let mut free = file[1];
    while free != 0 {
        blocks.push((free, Use::Free));
        free = p.link(text(free)).expect("a good file");
    }
    blocks
}

impl Session {
    /// The same file in the other form, and the session with it. Every other field of the session stays.
    pub fn turn(&mut self, file: &mut [u32], marks: &mut [u8]) -> Answer {
        let p = self.p;
        if !p.in_range() || file.len() != p.file_size() || marks.len() != p.n as usize {
            return Answer::refused(WRONG_SIZE);
        }
        if self.open {
            return Answer::refused(ALREADY_OPEN);
        }
        let Some(found) = inspect(&p, file) else {
            marks.fill(0);
            return Answer::refused(BAD_FILE);
        };
        marks.copy_from_slice(&found);
        let other = Description { form: if p.form == 1 { 2 } else { 1 }, ..p };
        for (b, kind) in used(&p, file) {
            let text = &mut file[p.start(b)..p.start(b) + p.wpb()];
            match kind {
                Use::Free => text.copy_from_slice(&other.chained(p.link(text).expect("a good file"))),
                _ => text[0] = other.headed(kind, p.counted(kind, text[0], p.wpb()).expect("a good file")),
            }
        }
        self.p = other;
        Answer::refused(DONE)
    }
}
