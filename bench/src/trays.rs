//! A tray of forty names against forty single NSERTs: the same names, in the same order, into two loaded files that are alike, by turns.
use crate::clock;
use crate::names::{Work, WPB, WPR};
use crate::nasturakh::{Session, DONE};
use crate::ours::P;

const TRAY: usize = 40;

/// A file with the names loaded, open.
struct File {
    session: Session,
    file: Vec<u32>,
    buffer: Vec<u32>,
}

fn loaded(work: &Work) -> File {
    let mut session = Session::new(P);
    let mut file = vec![0; P.file_words()];
    let mut buffer = vec![0; WPB];
    let mut marks = vec![0; P.n as usize];
    assert_eq!(session.create(&mut file).number, DONE);
    assert_eq!(session.open(&file, &buffer, &mut marks).number, DONE);
    for name in &work.loaded {
        assert!(session.xtend(&mut file, &mut buffer, &name.record).is_done());
    }
    File {
        session,
        file,
        buffer,
    }
}

/// Seconds that one tray takes, with its transfers.
fn by_tray(f: &mut File, tray: &[u32]) -> (f64, u64) {
    let start = clock::now();
    let trayed = f.session.nsert_tray(&mut f.file, &mut f.buffer, tray);
    let time = clock::now() - start;
    assert!(trayed.is_done());
    (time, trayed.transfers)
}

/// Seconds that NSERT of each of its records takes, with their transfers.
fn by_calls(f: &mut File, tray: &[u32]) -> (f64, u64) {
    let mut transfers = 0;
    let start = clock::now();
    for record in tray[1..].chunks_exact(WPR) {
        let answer = f.session.nsert(&mut f.file, &mut f.buffer, record);
        assert!(answer.is_done());
        transfers += u64::from(answer.transfers);
    }
    (clock::now() - start, transfers)
}

fn median(mut xs: Vec<f64>) -> f64 {
    xs.sort_by(f64::total_cmp);
    xs[xs.len() / 2]
}

/// The medians over all trays of all rounds, and the ratio.
pub fn report(rounds: usize) {
    let work = Work::new(false);
    let trays: Vec<Vec<u32>> = work
        .fresh
        .chunks_exact(TRAY)
        .map(|names| {
            let records = names.iter().flat_map(|name| name.record);
            std::iter::once(TRAY as u32).chain(records).collect()
        })
        .collect();
    let (mut one, mut forty) = (Vec::new(), Vec::new());
    for _ in 0..rounds {
        let (mut a, mut b) = (loaded(&work), loaded(&work));
        for tray in &trays {
            let (by_tray, by_calls) = (by_tray(&mut a, tray), by_calls(&mut b, tray));
            assert_eq!(by_tray.1, by_calls.1);
            one.push(by_tray.0);
            forty.push(by_calls.0);
        }
        assert!(a.file == b.file && a.buffer == b.buffer && a.session == b.session);
    }
    let (one, forty) = (median(one), median(forty));
    println!("| forty names | microseconds |");
    println!("|---|---|");
    println!("| a tray | {:.1} |", one * 1e6);
    println!("| forty NSERTs | {:.1} |", forty * 1e6);
    println!("| the tray over the NSERTs | {:.2} |", one / forty);
}
