//! What the run asks of each engine, and the run itself, timed by kind of call.
use crate::clock;
use crate::names::{Name, Record, Work, LOADED, WPR};
use std::hint::black_box;

pub const KINDS: [&str; 5] = ["XTEND", "SEEK", "NSERT", "DLETE", "ADV"];

pub trait Engine {
    /// Before the calls of a kind; `reads_only` for SEEK and ADV.
    fn begin(&mut self, kind: usize, reads_only: bool);
    fn append(&mut self, name: &Name) -> bool;
    fn seek(&mut self, name: &Name, out: &mut Record) -> bool;
    fn insert(&mut self, name: &Name) -> bool;
    fn delete(&mut self, name: &Name) -> bool;
    /// Copies each record in order, and hands the copy on.
    fn walk(&mut self, take: impl FnMut(&Record));
    /// After the calls of a kind; what an engine owes for them is part of their time.
    fn end(&mut self);
}

/// Seconds per call by kind, and a sum over all records handed out, the same for every engine.
pub struct Times {
    pub per_call: [f64; 5],
    pub sum: u64,
}

/// The calls of a kind, and how many they were.
fn calls(kind: usize, e: &mut impl Engine, work: &Work, sum: &mut u64) -> usize {
    let mut out = [0; WPR];
    // the whole record counts as used, so that no engine's copy of it is left out
    let mut take = |out: &Record| {
        let out = black_box(out);
        *sum = sum
            .wrapping_mul(31)
            .wrapping_add(u64::from(out[0] ^ out[WPR - 1]));
    };
    match kind {
        0 => work.loaded.iter().for_each(|n| assert!(e.append(n))),
        1 => work.sought.iter().for_each(|n| {
            assert!(e.seek(n, &mut out));
            take(&out);
        }),
        2 => work.fresh.iter().for_each(|n| assert!(e.insert(n))),
        3 => work.struck.iter().for_each(|n| assert!(e.delete(n))),
        _ => {
            let mut n = 0;
            e.walk(|out| {
                take(out);
                n += 1;
            });
            assert_eq!(n, LOADED);
        }
    }
    [
        LOADED,
        work.sought.len(),
        work.fresh.len(),
        work.struck.len(),
        LOADED,
    ][kind]
}

pub fn run(e: &mut impl Engine, work: &Work) -> Times {
    let mut times = Times {
        per_call: [0.0; 5],
        sum: 0,
    };
    for kind in 0..KINDS.len() {
        e.begin(kind, kind == 1 || kind == 4);
        let start = clock::now();
        let n = calls(kind, e, work, &mut times.sum);
        e.end();
        times.per_call[kind] = (clock::now() - start) / n as f64;
    }
    times
}
