//! NSERT, and the splits of full detail and index blocks.
use super::free::{no_clash, stored_number, Free};
use super::lookup::{lookup, Way};
use super::rows::{fresh, Rows};
use super::texts::{Bad, Plan, Planned, Texts};
use super::*;

pub fn nsert(t: &Texts) -> Planned<Plan> {
    let mut plan = Plan::begin(t);
    let looked = lookup(t, &mut plan, t.wanted())?;
    if looked.found.is_some() {
        return plan.ends(NOT_FOUND);
    }
    let way = looked.way.ok_or(Bad)?;
    store(t, plan, way, looked.count)
}

/// Stores the record in the block that a lookup brought, which holds so many.
pub fn store(t: &Texts, mut plan: Plan, way: Way, count: usize) -> Planned<Plan> {
    let place = t.records().first(&plan.buffer, count, |key| key > t.wanted()).unwrap_or(count);
    if count == t.p().d() {
        return split(t, plan, way, place);
    }
    plan.number = stored_number(t, None, count + 1)?;
    t.records().insert(&mut plan.buffer, count, place, &t.l.workspace);
    plan.buffer[0] += 1;
    plan.session.flag = true;
    plan.session.set_position(t.wanted());
    Ok(plan)
}

/// The two halves of a full block's rows with one more.
fn halves(rows: &Rows, text: &[u32], most: usize, place: usize, row: &[u32]) -> (Vec<Vec<u32>>, Vec<Vec<u32>>) {
    let mut lower = rows.list(text, most);
    lower.insert(place, row.to_vec());
    let upper = lower.split_off((most + 2) / 2);
    (lower, upper)
}

fn split(t: &Texts, mut plan: Plan, way: Way, place: usize) -> Planned<Plan> {
    let (p, k) = (t.p(), t.p().k());
    let (index, entries) = t.index(way.index)?;
    let index_full = entries == p.i();
    let mut free = Free::begin(t)?;
    let Some(blocks) = free.take_all(t, if index_full { 2 } else { 1 })? else { return plan.ends(NO_ROOM) };
    if index_full && t.sections()? == p.control as usize {
        return plan.ends(NO_ROOM);
    }
    no_clash(&plan, &[way.index, way.detail], &blocks)?;
    let (lower, upper) = halves(&t.records(), &plan.buffer, p.d(), place, &t.l.workspace);
    let in_lower = place < lower.len();
    plan.number = stored_number(t, Some(&free), if in_lower { lower.len() } else { upper.len() })?;
    let mut bounded = index.to_vec();
    t.entries().set_key(&mut bounded, way.entry, &lower[lower.len() - 1][..k]);
    let entry = [t.entries().key(index, way.entry), &[blocks[0]]].concat();
    let (low, high) = (fresh(p, Use::Detail, &lower), fresh(p, Use::Detail, &upper));
    plan.moves.push(Move::Read(way.index));
    plan.write(way.detail, low.clone());
    plan.write(blocks[0], high.clone());
    enter(t, &mut plan, way, (&bounded, entries), &entry, &blocks);
    free.store(&mut plan);
    if in_lower {
        plan.hold(way.detail, low)
    } else {
        plan.hold(blocks[0], high)
    }
    plan.events.push(Event::DetailSplit);
    plan.session.set_position(t.wanted());
    Ok(plan)
}

/// Enters the new detail block in the index block, and a new index block, if one is needed, in the master.
fn enter(t: &Texts, plan: &mut Plan, way: Way, (bounded, count): (&[u32], usize), entry: &[u32], blocks: &[u32]) {
    let (p, rows, k) = (t.p(), t.entries(), t.p().k());
    if blocks.len() == 1 {
        let mut words = bounded.to_vec();
        rows.insert(&mut words, count, way.entry + 1, entry);
        words[0] += 1;
        plan.write(way.index, words);
        return;
    }
    let (lower, upper) = halves(&rows, bounded, p.i(), way.entry + 1, entry);
    plan.write(way.index, fresh(p, Use::Index, &lower));
    plan.write(blocks[1], fresh(p, Use::Index, &upper));
    let master = t.entries_of_master();
    let section = [master.key(&t.l.file, way.section), &[blocks[1]]].concat();
    let sections = plan.master[0] as usize;
    master.set_key(&mut plan.master, way.section, &lower[lower.len() - 1][..k]);
    master.insert(&mut plan.master, sections, way.section + 1, &section);
    plan.master[0] += 1;
    plan.events.push(Event::IndexSplit);
}
