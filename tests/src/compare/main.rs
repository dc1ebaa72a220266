//! Compares the proved archive with the rendering of document 01, word by word.
#[cfg_attr(not(target_arch = "x86_64"), path = "served.rs")]
mod archive;
mod both;
mod copies;
mod fabricated;
mod fifteen;
mod keys;
mod known;
mod known_turns;
mod limits;
mod loose;
mod names;
mod plans;
mod random;
mod report;
mod salvages;
mod sequential;
mod sessions;
mod space;
mod spoil;
mod state;
mod trays;
mod turns;
mod twins;

use both::{Differs, Tally};
use random::Random;

const ROUNDS: u64 = 2000;

/// One seed: a session, calls on its states spoilt, calls on words and parameters made up, its files copied and turned, and sequential files.
fn round(seed: u64, tally: &mut report::Tallies) -> Result<(), Differs> {
    let mut r = Random::new(seed);
    let calls = r.between(50, 600) as usize;
    let kept = sessions::session(calls, &mut r, &mut tally.sessions)?;
    for _ in 0..300 {
        let (keys, state) = &kept[r.below(kept.len())];
        fabricated::spoilt(keys, state, &mut r, &mut tally.spoilt)?;
        fabricated::loose(&mut r, &mut tally.loose)?;
    }
    for _ in 0..60 {
        let (_, state) = &kept[r.below(kept.len())];
        fabricated::reopened(state, &mut r, &mut tally.reopened)?;
        fabricated::made_up(&mut r, &mut tally.made_up)?;
    }
    for _ in 0..20 {
        plans::compare(&mut r, &mut tally.limits)?;
        space::compare(&mut r, &mut tally.limits)?;
    }
    space::filled(&mut r, &mut tally.filled)?;
    limits::compare(&mut r, &mut tally.limits)?;
    for _ in 0..60 {
        copies::compare(&kept[r.below(kept.len())].1, &mut r, &mut tally.copies)?;
        turns::compare(&kept[r.below(kept.len())].1, &mut r, &mut tally.turns)?;
        let (keys, state) = &kept[r.below(kept.len())];
        turns::wrong_kind(keys, state, &mut r, &mut tally.turns)?;
    }
    for _ in 0..100 {
        sequential::list(&mut r, &mut tally.sequential)?;
        sequential::made_up(&mut r, &mut tally.sequential)?;
    }
    for _ in 0..100 {
        let (keys, state) = &kept[r.below(kept.len())];
        trays::compare(keys, state, &mut r, &mut tally.trays)?;
        trays::made_up(&mut r, &mut tally.trays)?;
    }
    for _ in 0..60 {
        salvages::compare(&kept[r.below(kept.len())].1, &mut r, &mut tally.salvages)?;
        salvages::made_up(&mut r, &mut tally.salvages)?;
    }
    for _ in 0..4 {
        let kept = names::run(&mut r, &mut tally.names)?;
        for _ in 0..40 {
            names::made_up(&kept, &mut r, &mut tally.names)?;
        }
    }
    Ok(())
}

fn all(rounds: u64) -> Result<report::Tallies, Differs> {
    let mut tallies = report::Tallies::default();
    fifteen::compare(&mut Tally::default())?;
    sequential::stored(&mut sequential::Tally::default())?;
    trays::stored()?;
    salvages::stored()?;
    names::stored(&mut names::Tally::default())?;
    limits::most_blocks(&mut tallies.limits)?;
    known::compare(&mut tallies.copies)?;
    space::stored(&mut tallies.filled)?;
    known_turns::compare(&mut tallies.turns)?;
    for seed in 0..rounds {
        round(seed, &mut tallies).map_err(|differs| format!("seed {seed}: {differs}"))?;
    }
    Ok(tallies)
}

fn main() {
    let rounds = std::env::args().nth(1).map_or(ROUNDS, |text| text.parse().expect("the argument is the number of rounds"));
    match all(rounds) {
        Err(differs) => {
            println!("DIFFERENT\n{differs}");
            std::process::exit(1);
        }
        Ok(tallies) => report::print(rounds, &tallies),
    }
}
