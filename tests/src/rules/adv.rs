//! ADV: the least key above position.
use super::lookup::Way;
use super::texts::{need, Bad, Plan, Planned, Texts};
use super::*;

pub fn adv(t: &Texts) -> Planned<Plan> {
    let mut plan = Plan::begin(t);
    let position = t.s.given.then(|| &t.s.position[..t.p().k()]);
    if !buffer_serves(t, position)? {
        let way = match position {
            None => {
                t.sections()?;
                t.way(0, 0)?
            }
            Some(key) => t.way_for(key)?,
        };
        plan.reach(t, way)?;
        if above(t, way.detail, position)?.is_none() {
            step(t, &mut plan, way)?;
        }
    }
    let place = above(t, plan.session.current, position)?.ok_or(Bad)?;
    let record = t.records().row(&plan.buffer, place).to_vec();
    let key = record[..t.p().k()].to_vec();
    plan.workspace = record;
    if key.iter().all(|&x| x == ONES) {
        return plan.ends(END_REACHED);
    }
    plan.session.set_position(&key);
    Ok(plan)
}

/// "Buffer's first key ≤ position < its last"; without a position no such test is made.
fn buffer_serves(t: &Texts, position: Option<&[u32]>) -> Planned<bool> {
    let Some(key) = position else { return Ok(false) };
    let Some(count) = t.buffered()? else { return Ok(false) };
    let records = t.records();
    Ok(records.key(&t.l.buffer, 0) <= key && key < records.key(&t.l.buffer, count - 1))
}

/// The first record of block `b` whose key is above position.
fn above(t: &Texts, b: u32, position: Option<&[u32]>) -> Planned<Option<usize>> {
    let (text, count) = t.detail(b)?;
    Ok(t.records().first(text, count, |key| position.is_none_or(|low| key > low)))
}

/// On to the next detail block: 1 transfer, or 2 if in the next section.
fn step(t: &Texts, plan: &mut Plan, way: Way) -> Planned<()> {
    let (_, count) = t.index(way.index)?;
    let next = if way.entry + 1 < count {
        plan.events.push(Event::NextBlock);
        t.way(way.section, way.entry + 1)?
    } else {
        need(way.section + 1 < t.sections()?)?;
        let next = t.way(way.section + 1, 0)?;
        plan.moves.push(Move::Read(next.index));
        plan.events.push(Event::NextSection);
        next
    };
    t.detail(next.detail)?;
    plan.fetch(t, next.detail);
    Ok(())
}
