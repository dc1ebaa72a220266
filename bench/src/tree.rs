//! Rust's BTreeMap in the run, from key to record.
use crate::engine::Engine;
use crate::names::{Name, Record, K};
use std::collections::BTreeMap;

#[derive(Default)]
pub struct Tree {
    map: BTreeMap<[u32; K], Record>,
}

fn key(name: &Name) -> [u32; K] {
    name.record[..K].try_into().expect("K words")
}

impl Engine for Tree {
    fn begin(&mut self, _: usize, _: bool) {}

    fn append(&mut self, name: &Name) -> bool {
        self.insert(name)
    }

    fn seek(&mut self, name: &Name, out: &mut Record) -> bool {
        self.map.get(&key(name)).map(|r| *out = *r).is_some()
    }

    fn insert(&mut self, name: &Name) -> bool {
        self.map.insert(key(name), name.record).is_none()
    }

    fn delete(&mut self, name: &Name) -> bool {
        self.map.remove(&key(name)).is_some()
    }

    fn walk(&mut self, mut take: impl FnMut(&Record)) {
        for record in self.map.values() {
            let out = *record;
            take(&out);
        }
    }

    fn end(&mut self) {}
}
