//! SEEK's time against the sections in use: the master is searched from its front, so a lookup passes half of them on the average.
use crate::clock;
use crate::names::Random;
use crate::nasturakh::{Parameters, Session, DONE};

const SECTIONS: [u32; 4] = [40, 400, 4_000, 16_383];
const SOUGHT: usize = 20_000;

/// A file of small blocks with so many sections, filled by XTEND: two detail blocks of five records to a section.
struct Sections {
    session: Session,
    file: Vec<u32>,
    buffer: Vec<u32>,
    keys: u32,
}

fn filled(sections: u32) -> Sections {
    let p = Parameters {
        wpb: 6,
        wpr: 1,
        k: 1,
        space: 0,
        control: sections,
        n: 3 * sections + 8,
    };
    let mut session = Session::new(p);
    let mut file = vec![0; p.file_words()];
    let mut buffer = vec![0; 6];
    let mut marks = vec![0; p.n as usize];
    assert_eq!(session.create(&mut file).number, DONE);
    assert_eq!(session.open(&file, &buffer, &mut marks).number, DONE);
    let mut keys = 0;
    while file[0] < sections {
        keys += 1;
        assert!(session.xtend(&mut file, &mut buffer, &[keys]).is_done());
    }
    Sections {
        session,
        file,
        buffer,
        keys,
    }
}

/// Seconds per SEEK of keys picked at random.
fn seeks(s: &mut Sections, random: &mut Random) -> f64 {
    let picks: Vec<u32> = (0..SOUGHT)
        .map(|_| 1 + random.below(s.keys as usize) as u32)
        .collect();
    let start = clock::now();
    for &key in &picks {
        let answer = s.session.seek(&mut s.file, &mut s.buffer, &mut [key]);
        assert_eq!(answer.number, DONE);
    }
    (clock::now() - start) / SOUGHT as f64
}

/// The medians over the rounds, taken by turns, and each as a multiple of the one at 400 sections.
pub fn report(rounds: usize) {
    let mut files: Vec<Sections> = SECTIONS.iter().map(|&n| filled(n)).collect();
    let mut random = Random::new();
    let mut times = vec![Vec::new(); files.len()];
    for _ in 0..rounds {
        for (file, times) in files.iter_mut().zip(&mut times) {
            times.push(seeks(file, &mut random));
        }
    }
    let medians: Vec<f64> = times
        .into_iter()
        .map(|mut xs| {
            xs.sort_by(f64::total_cmp);
            xs[xs.len() / 2]
        })
        .collect();
    println!("| sections in use | nanoseconds per SEEK | over that at 400 |");
    println!("|---|---|---|");
    for (sections, time) in SECTIONS.iter().zip(&medians) {
        println!(
            "| {sections} | {:.0} | {:.2} |",
            time * 1e9,
            time / medians[1]
        );
    }
}
