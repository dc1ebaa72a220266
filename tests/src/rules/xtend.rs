//! XTEND: records in sequence at the end of the file.
use super::free::{no_clash, stored_number, Free};
use super::lookup::Way;
use super::rows::fresh;
use super::texts::{need, Plan, Planned, Texts};
use super::*;

pub fn xtend(t: &Texts) -> Planned<Plan> {
    let mut plan = Plan::begin(t);
    let count = reach_last(t, &mut plan)?;
    let records = t.records();
    if count > 1 {
        if t.wanted() <= records.key(&plan.buffer, count - 2) {
            return plan.ends(OUT_OF_SEQUENCE);
        }
    } else {
        let way = last_way(t, &plan)?;
        plan.moves.push(Move::Read(way.index));
        if bound_before(t, way)?.is_some_and(|bound| t.wanted() <= bound) {
            return store_before(t, plan, way);
        }
    }
    if count >= t.p().fd() {
        let way = last_way(t, &plan)?;
        return start_block(t, plan, way, count);
    }
    plan.number = stored_number(t, None, count + 1)?;
    records.insert(&mut plan.buffer, count, count - 1, &t.l.workspace);
    plan.buffer[0] += 1;
    plan.session.flag = true;
    plan.session.set_position(t.wanted());
    Ok(plan)
}

fn ends_in_ones(t: &Texts, text: &[u32], count: usize) -> bool {
    t.records().key(text, count - 1).iter().all(|&x| x == ONES)
}

/// Brings the last block to the buffer, and tells how many records it holds.
fn reach_last(t: &Texts, plan: &mut Plan) -> Planned<usize> {
    if let Some(count) = t.buffered()? {
        if ends_in_ones(t, &t.l.buffer, count) {
            return Ok(count);
        }
    }
    let way = t.way_to_last()?;
    plan.reach(t, way)?;
    let (text, count) = t.detail(way.detail)?;
    need(ends_in_ones(t, text, count))?;
    Ok(count)
}

/// The way to the last block, which must be the one in the buffer.
fn last_way(t: &Texts, plan: &Plan) -> Planned<Way> {
    let way = t.way_to_last()?;
    need(way.detail == plan.session.current)?;
    Ok(way)
}

/// The bound before the last block, in its index block or of the section before.
fn bound_before<'a>(t: &Texts<'a>, way: Way) -> Planned<Option<&'a [u32]>> {
    let (index, _) = t.index(way.index)?;
    Ok(if way.entry > 0 {
        Some(t.entries().key(index, way.entry - 1))
    } else if way.section > 0 {
        Some(t.entries_of_master().key(&t.l.file, way.section - 1))
    } else {
        None
    })
}

/// Whether the entry that follows that of `way` is the last one.
fn is_next_to_last(t: &Texts, way: Way, last: Way) -> Planned<bool> {
    let (_, count) = t.index(way.index)?;
    let next = if way.entry + 1 < count { (way.section, way.entry + 1) } else { (way.section + 1, 0) };
    Ok(next == (last.section, last.entry))
}

/// The bound before the last block may outlive its record: the key is looked up, and stored there if all that is left is below it.
fn store_before(t: &Texts, mut plan: Plan, last: Way) -> Planned<Plan> {
    let way = t.way_for(t.wanted())?;
    plan.reach(t, way)?;
    let (text, count) = t.detail(way.detail)?;
    let found = t.records().first(text, count, |key| key == t.wanted()).is_some();
    let behind = is_next_to_last(t, way, last)? && t.records().key(text, count - 1) < t.wanted();
    if found || !behind {
        return plan.ends(OUT_OF_SEQUENCE);
    }
    let mut plan = nsert::store(t, plan, way, count)?;
    if plan.number != NO_ROOM {
        plan.events.push(if count == t.p().d() { Event::SplitBehind } else { Event::StoredBehind });
    }
    Ok(plan)
}

fn start_block(t: &Texts, mut plan: Plan, way: Way, count: usize) -> Planned<Plan> {
    let (p, records) = (t.p(), t.records());
    let (index, entries) = t.index(way.index)?;
    let section_needed = entries >= p.fi();
    let mut free = Free::begin(t)?;
    let Some(blocks) = free.take_all(t, if section_needed { 2 } else { 1 })? else { return plan.ends(NO_ROOM) };
    if section_needed && t.sections()? == p.control as usize {
        return plan.ends(NO_ROOM);
    }
    no_clash(&plan, &[way.index, way.detail], &blocks)?;
    plan.number = stored_number(t, Some(&free), count)?;
    let new = fresh(p, Use::Detail, &[records.row(&plan.buffer, count - 1).to_vec()]);
    let mut old = plan.buffer.clone();
    records.set(&mut old, count - 1, &t.l.workspace);
    plan.write(way.detail, old);
    plan.moves.push(Move::Read(way.index));
    enter(t, &mut plan, way, (index, entries), &blocks, &new);
    free.store(&mut plan);
    plan.hold(blocks[0], new);
    plan.session.flag = false;
    plan.events.push(Event::BlockStarted);
    plan.session.set_position(t.wanted());
    Ok(plan)
}

/// The last entry's bound becomes the key; the new block is entered after it, or under a new section.
fn enter(t: &Texts, plan: &mut Plan, way: Way, (index, count): (&[u32], usize), blocks: &[u32], new: &[u32]) {
    let (p, rows) = (t.p(), t.entries());
    let entry = |b: u32| [vec![ONES; p.k()], vec![b]].concat();
    let mut words = index.to_vec();
    rows.set_key(&mut words, way.entry, t.wanted());
    if blocks.len() == 1 {
        rows.insert(&mut words, count, count, &entry(blocks[0]));
        words[0] += 1;
    }
    plan.write(way.index, words);
    plan.write(blocks[0], new.to_vec());
    if blocks.len() == 2 {
        plan.write(blocks[1], fresh(p, Use::Index, &[entry(blocks[0])]));
        let master = t.entries_of_master();
        master.set_key(&mut plan.master, way.section, t.wanted());
        master.set(&mut plan.master, way.section + 1, &entry(blocks[1]));
        plan.master[0] += 1;
        plan.events.push(Event::SectionStarted);
    }
}
