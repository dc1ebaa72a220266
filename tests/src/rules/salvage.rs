//! "Salvage": a fresh file built of the records of a broken copy, whose blocks are marked as in the second form, and a report of what was not carried.
use super::*;

/// The number, the transfers of the NSERTs and of the CLOSE, and the lines: block, place, reason.
pub struct Salvaged {
    pub number: u32,
    pub transfers: usize,
    pub lines: Vec<[u32; 3]>,
}

/// The records of a block's text, or the first test that it misses: 1 not marked detail, 2 no good count, 3 a word too large, 4 keys not ascending.
fn records<'a>(p: &Description, text: &'a [u32]) -> Result<Vec<&'a [u32]>, u32> {
    if !(8192..=12287).contains(&text[0]) {
        return Err(1);
    }
    let count = (text[0] - 8192) as usize;
    if count == 0 || count > p.d() {
        return Err(2);
    }
    let words = &text[1..1 + count * p.wpr()];
    if words.iter().any(|&word| word > ONES) {
        return Err(3);
    }
    let records: Vec<&[u32]> = words.chunks_exact(p.wpr()).collect();
    if records.windows(2).any(|pair| pair[0][..p.k()] >= pair[1][..p.k()]) {
        return Err(4);
    }
    Ok(records)
}

/// Blocks in number order; lines go to the front of the report, whose other words stay.
pub fn salvage(p: &Description, copy: &[u32], fresh: &mut Vec<u32>, buffer: &mut Vec<u32>, report: &mut [u32]) -> Salvaged {
    let fits = p.in_range() && [copy.len(), fresh.len()] == [p.file_size(); 2] && buffer.len() == p.wpb();
    if !fits || report.len() < 3 * p.n as usize * (1 + p.d()) {
        return Salvaged { number: WRONG_SIZE, transfers: 0, lines: Vec::new() };
    }
    let mut done = Salvaged { number: DONE, transfers: 0, lines: Vec::new() };
    create(p, fresh);
    let mut session = Session { open: true, ..Session::new(*p) };
    let mut lent = Lent { file: std::mem::take(fresh), buffer: std::mem::take(buffer), workspace: Vec::new(), marks: Vec::new() };
    for b in 1..=p.n {
        match records(p, &copy[p.start(b)..p.start(b) + p.wpb()]) {
            Err(reason) => done.lines.push([b, 0, reason]),
            Ok(records) => {
                for (place, record) in (1..).zip(records).filter(|(_, record)| record[..p.k()].iter().any(|&word| word != ONES)) {
                    lent.workspace = record.to_vec();
                    let answer = session.nsert(&mut lent);
                    done.transfers += answer.moves.len();
                    match answer.number {
                        DONE | STORED_FULL => {}
                        NOT_FOUND => done.lines.push([b, place, 5]),
                        _ => done.lines.push([b, place, 6]),
                    }
                }
            }
        }
    }
    done.transfers += session.close(&mut lent).moves.len();
    (*fresh, *buffer) = (lent.file, lent.buffer);
    for (words, line) in report.chunks_exact_mut(3).zip(&done.lines) {
        words.copy_from_slice(line);
    }
    done
}
