//! The tables that a run prints.
use crate::engine::KINDS;
use crate::ours::Count;
use crate::{Lane, Peer};

/// The session formula's share of each kind: transfers per call, without what new blocks add.
const BOUND: [u64; 5] = [6, 3, 3, 6, 5];

fn median(mut xs: Vec<f64>) -> f64 {
    xs.sort_by(f64::total_cmp);
    xs[xs.len() / 2]
}

fn of_kind(lane: &Lane, kind: usize) -> f64 {
    median(lane.rounds.iter().map(|t| t.per_call[kind]).collect())
}

/// Transfers by kind beside the bound: for each call its kind's number, 4 for each detail block started, 1 for each index block.
pub fn transfers(counts: &[Count; 5]) {
    println!("| call | calls | transfers | per call | most in one | new detail, index blocks | bound per call | bound of all |");
    println!("|---|---|---|---|---|---|---|---|");
    for (kind, c) in counts.iter().enumerate() {
        let (details, indexes) = (c.details.max(0) as u64, c.indexes.max(0) as u64);
        let bound = BOUND[kind] * c.calls + 4 * details + indexes;
        assert!(c.transfers <= bound, "the bound is broken");
        println!(
            "| {} | {} | {} | {:.2} | {} | {}, {} | {} | {} |",
            KINDS[kind],
            c.calls,
            c.transfers,
            c.transfers as f64 / c.calls as f64,
            c.most,
            details,
            indexes,
            BOUND[kind],
            bound
        );
    }
}

fn heading(first: &str, lanes: &[Lane], missing: &[Peer]) {
    let names = lanes.iter().map(|l| l.name);
    let names: Vec<&str> = names.chain(missing.iter().map(|p| p.name)).collect();
    println!("\n| {first} | {} |", names.join(" | "));
    println!("|---{}|", "|---".repeat(names.len()));
}

/// A row of a table: an engine that is not installed is named with the package that brings it.
fn row(name: &str, lanes: &[Lane], missing: &[Peer], cell: impl Fn(&Lane) -> String) {
    let absent = missing
        .iter()
        .map(|p| format!("not installed: {}", p.package));
    let cells: Vec<String> = lanes.iter().map(cell).chain(absent).collect();
    println!("| {name} | {} |", cells.join(" | "));
}

/// Times per call in block copies, then ours as a ratio to each other engine.
pub fn times(lanes: &[Lane], missing: &[Peer], copies: &[f64]) {
    let copy = median(copies.to_vec());
    heading("time per call, in block copies", lanes, missing);
    for (kind, name) in KINDS.iter().enumerate() {
        row(name, lanes, missing, |l| {
            format!("{:.2}", of_kind(l, kind) / copy)
        });
    }
    if lanes.len() == 1 {
        return;
    }
    heading("Nasturakh's time over that of", &lanes[1..], missing);
    for (kind, name) in KINDS.iter().enumerate() {
        let ours = of_kind(&lanes[0], kind);
        row(name, &lanes[1..], missing, |l| {
            format!("{:.2}", ours / of_kind(l, kind))
        });
    }
}

pub fn nanoseconds(lanes: &[Lane], missing: &[Peer], copies: &[f64]) {
    heading("nanoseconds per call", lanes, missing);
    for (kind, name) in KINDS.iter().enumerate() {
        row(name, lanes, missing, |l| {
            format!("{:.0}", of_kind(l, kind) * 1e9)
        });
    }
    println!("\none block copied: {:.0}", median(copies.to_vec()) * 1e9);
}
