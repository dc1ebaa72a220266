//! Records in a row: PUT and GET on sequential blocks, with the row of seven words.
use super::{DONE, END_REACHED, NO_ROOM, WRONG_LENGTH, WRONG_SIZE};

/// What the first four words of the row say.
struct Layout {
    wpb: usize,
    leaders: usize,
    /// The words of a fixed record; none where each begins with its length.
    fixed: Option<usize>,
}

impl Layout {
    /// The layout, if the row has one and the lengths fit it.
    fn of(row: &[u32], file: usize, workspace: usize) -> Option<Layout> {
        let &[wpb, leaders, kind, wpr, _, _, _] = row else { return None };
        if wpb % 2 != 0 || !(6..=4096).contains(&wpb) || leaders > 63 || leaders >= wpb || kind > 1 {
            return None;
        }
        let layout = Layout { wpb: wpb as usize, leaders: leaders as usize, fixed: (kind == 0).then_some(wpr as usize) };
        let whole = file % layout.wpb == 0 && file / layout.wpb <= u32::MAX as usize;
        (whole && workspace == layout.fixed.unwrap_or(layout.data())).then_some(layout)
    }

    fn data(&self) -> usize {
        self.wpb - self.leaders
    }

    /// Neither of length 0 nor too large.
    fn holds(&self, words: usize) -> bool {
        words != 0 && words <= self.data()
    }
}

/// PUT: its number.
pub fn put(row: &mut [u32], file: &mut [u32], workspace: &[u32]) -> u32 {
    let Some(layout) = Layout::of(row, file.len(), workspace.len()) else { return WRONG_SIZE };
    let words = layout.fixed.unwrap_or_else(|| workspace[0] as usize);
    if !layout.holds(words) {
        return WRONG_LENGTH;
    }
    let mut blocks = file.chunks_exact_mut(layout.wpb).enumerate().skip(row[4] as usize);
    let Some(mut found) = blocks.next() else { return NO_ROOM };
    let mut at = row[5] as usize;
    if at + words > layout.data() {
        let Some(next) = blocks.next() else { return NO_ROOM };
        (found, at) = (next, 0);
    }
    let (block, data) = (found.0, &mut found.1[layout.leaders..]);
    data[at..at + words].copy_from_slice(&workspace[..words]);
    if layout.fixed.is_none() {
        if let Some(behind) = data.get_mut(at + words) {
            *behind = 0;
        }
    }
    row[4] = block as u32;
    row[5] = (at + words) as u32;
    DONE
}

/// GET: its number.
pub fn get(row: &mut [u32], file: &[u32], workspace: &mut [u32]) -> u32 {
    let Some(layout) = Layout::of(row, file.len(), workspace.len()) else { return WRONG_SIZE };
    if layout.fixed.is_some_and(|words| !layout.holds(words)) {
        return WRONG_LENGTH;
    }
    if row[6] == 0 {
        return END_REACHED;
    }
    let mut blocks = file.chunks_exact(layout.wpb).map(|block| &block[layout.leaders..]).enumerate().skip(row[4] as usize);
    let Some((mut block, mut data)) = blocks.next() else { return END_REACHED };
    let mut at = row[5] as usize;
    let ends = match layout.fixed {
        Some(words) => at + words > data.len(),
        None => at != 0 && data.get(at).is_none_or(|word| *word == 0),
    };
    if ends {
        let Some(next) = blocks.next() else { return END_REACHED };
        (block, data) = next;
        at = 0;
    }
    let words = layout.fixed.unwrap_or_else(|| data[at] as usize);
    if words == 0 || at + words > data.len() {
        return WRONG_LENGTH;
    }
    workspace[..words].copy_from_slice(&data[at..at + words]);
    row[4] = block as u32;
    row[5] = (at + words) as u32;
    row[6] -= 1;
    DONE
}
