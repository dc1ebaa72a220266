//! DLETE, and the blocks it empties.
use super::lookup::{lookup, Way};
use super::texts::{need, Plan, Planned, Texts};
use super::*;

pub fn dlete(t: &Texts) -> Planned<Plan> {
    let mut plan = Plan::begin(t);
    let looked = lookup(t, &mut plan, t.wanted())?;
    let Some(place) = looked.found else { return plan.ends(NOT_FOUND) };
    plan.session.set_position(t.wanted());
    if looked.count > 1 {
        t.records().remove(&mut plan.buffer, looked.count, place);
        plan.buffer[0] -= 1;
        plan.session.flag = true;
        return Ok(plan);
    }
    let way = match looked.way {
        Some(way) => way,
        None => t.way_for(t.wanted())?,
    };
    need(way.detail == plan.session.current)?;
    emptied(t, plan, way)
}

fn emptied(t: &Texts, mut plan: Plan, way: Way) -> Planned<Plan> {
    let (index, count) = t.index(way.index)?;
    let link = t.l.file[1];
    need(link <= t.p().n)?;
    plan.events.push(Event::BlockEmptied);
    plan.write(way.detail, t.p().chained(link));
    plan.moves.push(Move::Read(way.index));
    plan.master[1] = way.detail;
    if count > 1 {
        plan.write(way.index, without(t, index, count, way.entry));
    } else {
        plan.events.push(Event::IndexEmptied);
        plan.write(way.index, t.p().chained(way.detail));
        plan.master[1] = way.index;
        let sections = t.sections()?;
        t.entries_of_master().remove(&mut plan.master, sections, way.section);
        plan.master[0] -= 1;
    }
    plan.hold(0, vec![0; t.p().wpb()]);
    plan.session.flag = false;
    Ok(plan)
}

/// The index block without this entry; if it was the last, the one before takes its bound.
fn without(t: &Texts, index: &[u32], count: usize, entry: usize) -> Vec<u32> {
    let rows = t.entries();
    let mut words = index.to_vec();
    if entry == count - 1 {
        let bound = rows.key(index, entry).to_vec();
        rows.set_key(&mut words, entry - 1, &bound);
    }
    rows.remove(&mut words, count, entry);
    words[0] -= 1;
    words
}
