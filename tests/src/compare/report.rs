//! What was tried: how often each number, each kind of split, each part of VIEW, each answer to a plan, a copy, a turn and a tray occurred, and
//! what became of blocks that say a wrong kind.
use crate::both::Tally;
use crate::names;
use crate::salvages;
use crate::sequential;
use crate::trays;
use nasturakh_tests::rules::{Event, Kind};

#[derive(Default)]
pub struct Tallies {
    pub sessions: Tally,
    pub spoilt: Tally,
    pub reopened: Tally,
    pub loose: Tally,
    pub made_up: Tally,
    pub limits: Tally,
    pub copies: Tally,
    pub filled: Tally,
    pub turns: Tally,
    pub sequential: sequential::Tally,
    pub trays: trays::Tally,
    pub names: names::Tally,
    pub salvages: salvages::Tally,
}

const NUMBERS: [u32; 11] = [0, 0o1, 0o5, 0o020005, 0o020006, 0o020007, 0o030001, 0o030002, 0o070001, 0o070002, 0o070003];

/// What a copy and a turn can answer.
const COPIES: [u32; 4] = [0, 0o020006, 0o020007, 0o070003];
/// What PUT and GET can answer.
const SEQUENTIAL: [(&str, u32); 8] =
    [("Put", 0), ("Put", 0o020007), ("Put", 0o020012), ("Put", 0o070002), ("Get", 0), ("Get", 0o020007), ("Get", 0o020012), ("Get", 0o030002)];

/// What a tray can answer.
const TRAYS: [u32; 8] = [0, 0o1, 0o020005, 0o020007, 0o030001, 0o070001, 0o070002, 0o070003];
/// What salvage can answer, and why a block or a record is reported.
const SALVAGES: [(&str, u32); 8] =
    [("number", 0), ("number", 0o020007), ("reason", 1), ("reason", 2), ("reason", 3), ("reason", 4), ("reason", 5), ("reason", 6)];
/// What the register can answer.
const NAMES: [(&str, u32); 10] = [
    ("Enter", 0),
    ("Enter", 1),
    ("Enter", 0o070001),
    ("Enter", 0o070002),
    ("Ask", 0),
    ("Romanise", 0),
    ("Romanise", 0o030001),
    ("Romanise", 0o030007),
    ("Hold", 0),
    ("Free", 0),
];

const EVENTS: [Event; 11] = [
    Event::DetailSplit,
    Event::IndexSplit,
    Event::BlockStarted,
    Event::SectionStarted,
    Event::BlockEmptied,
    Event::IndexEmptied,
    Event::NextBlock,
    Event::NextSection,
    Event::ChainTaken,
    Event::StoredBehind,
    Event::SplitBehind,
];

fn of_number(tally: &Tally, number: u32) -> Vec<(Kind, u64)> {
    tally.numbers.iter().filter(|((n, _), _)| *n == number).map(|((_, kind), count)| (*kind, *count)).collect()
}

fn show(title: &str, tally: &Tally) {
    println!("{title}: {} calls", tally.calls);
    for number in NUMBERS {
        let kinds: Vec<String> = of_number(tally, number).iter().map(|(kind, count)| format!("{kind:?} {count}")).collect();
        if !kinds.is_empty() {
            println!("  {number:06o}  {}", kinds.join(", "));
        }
    }
    let events: Vec<String> = tally.events.iter().map(|(event, count)| format!("{event:?} {count}")).collect();
    println!("  {}", events.join(", "));
    println!("  VIEW {:?}", tally.views);
    if !tally.plans.is_empty() {
        println!("  plans {:?}", tally.plans);
    }
    for (what, answers) in [("copies", &tally.copies), ("turns", &tally.turns)] {
        if !answers.is_empty() {
            let numbers: Vec<String> = answers.iter().map(|(number, count)| format!("{number:06o} {count}")).collect();
            println!("  {what} {}", numbers.join(", "));
        }
    }
    if !tally.kinds.is_empty() {
        println!("  wrong kinds {:?}", tally.kinds);
    }
}

/// What never occurred: whole sessions must show every event and every number but 020007, which states spoilt must show, what plans
/// can answer, what a copy and a turn can, and both that may become of a wrong kind.
fn missing(tallies: &Tallies) -> Vec<String> {
    let mut lacking = Vec::new();
    for number in NUMBERS {
        let tally = if number == 0o020007 { &tallies.spoilt } else { &tallies.sessions };
        if of_number(tally, number).is_empty() {
            lacking.push(format!("{number:06o}"));
        }
    }
    let plans = [
        (&tallies.limits, "bound"),
        (&tallies.limits, "no plan"),
        (&tallies.sessions, "kept"),
        (&tallies.limits, "space"),
        (&tallies.limits, "no space"),
        (&tallies.filled, "half full"),
        (&tallies.filled, "half full, sections"),
    ];
    lacking.extend(plans.iter().filter(|(tally, kind)| !tally.plans.contains_key(kind)).map(|(_, kind)| kind.to_string()));
    lacking.extend(COPIES.iter().filter(|number| !tallies.copies.copies.contains_key(number)).map(|number| format!("a copy with {number:06o}")));
    lacking.extend(COPIES.iter().filter(|number| !tallies.turns.turns.contains_key(number)).map(|number| format!("a turn with {number:06o}")));
    let kinds = ["refused", "not looked at"].into_iter().filter(|kind| !tallies.turns.kinds.contains_key(kind));
    lacking.extend(kinds.map(|kind| format!("a wrong kind {kind}")));
    let rows = SEQUENTIAL.iter().filter(|answer| !tallies.sequential.contains_key(answer));
    lacking.extend(rows.map(|(kind, number)| format!("{kind} {number:06o}")));
    lacking.extend(TRAYS.iter().filter(|number| !tallies.trays.contains_key(number)).map(|number| format!("a tray with {number:06o}")));
    lacking.extend(SALVAGES.iter().filter(|told| !tallies.salvages.contains_key(told)).map(|(what, n)| format!("salvage with {what} {n:o}")));
    lacking.extend(NAMES.iter().filter(|answer| !tallies.names.contains_key(answer)).map(|(deed, number)| format!("{deed} {number:06o}")));
    lacking.extend(EVENTS.iter().filter(|e| !tallies.sessions.events.contains_key(e)).map(|e| format!("{e:?}")));
    lacking
}

pub fn print(rounds: u64, tallies: &Tallies) {
    show("sessions from CREATE and OPEN", &tallies.sessions);
    show("states spoilt", &tallies.spoilt);
    show("files spoilt and opened", &tallies.reopened);
    show("words in range, blocks at random", &tallies.loose);
    show("words made up", &tallies.made_up);
    show("parameters at their limits", &tallies.limits);
    show("files copied under another CONTROL", &tallies.copies);
    show("names in just their space", &tallies.filled);
    show("files turned to the other block form, blocks of a wrong kind", &tallies.turns);
    println!("records in a row");
    for ((kind, number), count) in &tallies.sequential {
        println!("  {number:06o}  {kind} {count}");
    }
    let trays: Vec<String> = tallies.trays.iter().map(|(number, count)| format!("{number:06o} {count}")).collect();
    println!("trays\n  {}", trays.join(", "));
    println!("copies salvaged");
    for ((what, n), count) in &tallies.salvages {
        println!("  {what} {n:o}  {count}");
    }
    println!("names in the register");
    for ((deed, number), count) in &tallies.names {
        println!("  {number:06o}  {deed} {count}");
    }
    let lacking = missing(tallies);
    if !lacking.is_empty() {
        println!("NEVER OCCURRED: {}", lacking.join(", "));
        std::process::exit(1);
    }
    println!("{rounds} rounds, no difference");
}
