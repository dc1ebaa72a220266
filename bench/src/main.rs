//! The sheet run: the same work for each engine, several times by turns; transfers and medians printed as tables.
//! Words on the command line: see README.md.
#[cfg(berkeley)]
mod berkeley;
mod clock;
mod engine;
#[cfg(lmdb)]
mod lmdb;
mod names;
#[allow(dead_code)]
#[path = "../../examples/rust/src/nasturakh.rs"]
mod nasturakh;
mod ours;
mod report;
mod sections;
mod trays;
mod tree;

use engine::{run, Times};
use names::{Random, Work, SOUGHT, WPB};
use ours::{Count, Ours, P};
use std::hint::black_box;

/// Seconds to copy one block of a file of that many blocks, picked at random, into one buffer.
fn copy_block(blocks: usize) -> f64 {
    let file = vec![1u32; blocks * WPB];
    let mut buffer = vec![0u32; WPB];
    let mut random = Random::new();
    let picks: Vec<usize> = (0..SOUGHT).map(|_| random.below(blocks) * WPB).collect();
    let start = clock::now();
    for &at in &picks {
        buffer.copy_from_slice(black_box(&file[at..at + WPB]));
        black_box(&mut buffer);
    }
    (clock::now() - start) / SOUGHT as f64
}

/// The times of one engine, round by round.
pub struct Lane {
    pub name: &'static str,
    pub rounds: Vec<Times>,
}

/// An engine that takes part where its header is installed, and the Debian package that brings it.
pub struct Peer {
    pub name: &'static str,
    here: bool,
    pub package: &'static str,
}

const PEERS: [Peer; 2] = [
    Peer {
        name: "Berkeley DB",
        here: cfg!(berkeley),
        package: "libdb5.3-dev",
    },
    Peer {
        name: "LMDB",
        here: cfg!(lmdb),
        package: "liblmdb-dev",
    },
];

fn lanes() -> Vec<Lane> {
    let peers = PEERS.iter().filter(|p| p.here).map(|p| p.name);
    ["Nasturakh", "BTreeMap"]
        .into_iter()
        .chain(peers)
        .map(|name| Lane {
            name,
            rounds: Vec::new(),
        })
        .collect()
}

fn one_run(name: &str, work: &Work, counts: &mut [Count; 5]) -> Times {
    match name {
        "Nasturakh" => {
            let mut ours = Ours::new();
            let times = run(&mut ours, work);
            ours.settle();
            *counts = ours.counts;
            times
        }
        #[cfg(berkeley)]
        "Berkeley DB" => run(&mut berkeley::Berkeley::new(), work),
        #[cfg(lmdb)]
        "LMDB" => run(&mut lmdb::Lmdb::new(), work),
        _ => run(&mut tree::Tree::default(), work),
    }
}

fn main() {
    let words: Vec<String> = std::env::args().skip(1).collect();
    let rounds = words.iter().find_map(|w| w.parse().ok()).unwrap_or(7);
    if words.iter().any(|w| w == "sections") {
        return sections::report(rounds);
    }
    if words.iter().any(|w| w == "trays") {
        return trays::report(rounds);
    }
    let only = words.iter().any(|w| w == "ours");
    let work = Work::new(words.iter().any(|w| w == "alike"));
    let mut lanes = lanes();
    let mut missing: Vec<Peer> = PEERS.into_iter().filter(|p| !p.here).collect();
    if only {
        lanes.truncate(1);
        missing.clear();
    }
    let mut counts = [Count::default(); 5];
    let mut copies = Vec::new();
    for _ in 0..rounds {
        copies.push(copy_block(P.n as usize));
        for lane in &mut lanes {
            lane.rounds.push(one_run(lane.name, &work, &mut counts));
        }
    }
    let sum = lanes[0].rounds[0].sum;
    assert!(
        lanes.iter().all(|l| l.rounds.iter().all(|t| t.sum == sum)),
        "the engines hand out different records"
    );
    report::transfers(&counts);
    report::times(&lanes, &missing, &copies);
    if words.iter().any(|w| w == "ns") {
        report::nanoseconds(&lanes, &missing, &copies);
    }
}
