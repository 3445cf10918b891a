//! What may be there and decides nothing: the contents of tombstones, values that are not defined, and the order in which values are numbered.
use crate::model::{Block, Function, Value};
use crate::rng::Random;

/// A tombstone holds what another block holds, its edges going anywhere.
fn bury(random: &mut Random, f: &mut Function) {
    let live: Vec<Block> = f.live_blocks().map(|(_, b)| b.clone()).collect();
    for block in f.blocks.iter_mut().filter(|b| b.tombstone) {
        if random.chance(30) {
            continue;
        }
        let like = &live[random.below(live.len() as u32) as usize];
        let id = random.one_of(&[block.id, 0, 5000]);
        *block = Block { id, tombstone: true, ..like.clone() };
        for edge in block.term.iter_mut().flat_map(|t| &mut t.edges) {
            edge.to = random.one_of(&[edge.to, 0, 77, 2000]);
            edge.args.truncate(random.below(4) as usize);
        }
    }
}

fn rename(f: &mut Function, name: &[u32]) {
    for block in &mut f.blocks {
        let instrs = block.instrs.iter_mut().flat_map(|i| i.dst.iter_mut().chain(&mut i.operands));
        let ends = block.term.iter_mut().flat_map(|t| t.operands.iter_mut().chain(t.edges.iter_mut().flat_map(|e| &mut e.args)));
        for v in block.params.iter_mut().chain(instrs).chain(ends) {
            *v = name[*v as usize];
        }
    }
}

/// Values in any order, with others between that are not defined.
fn scatter(random: &mut Random, f: &mut Function) {
    let old = f.values.len();
    let more = old + random.below(9) as usize;
    let mut name: Vec<u32> = (0..more as u32).collect();
    random.shuffle(&mut name);
    rename(f, &name);
    let mut values = vec![Value { start: u32::MAX, end: 0, hint: None }; more];
    for value in &mut values {
        value.end = random.one_of(&[0, 3, u32::MAX]);
    }
    for (v, value) in f.values.iter().enumerate() {
        values[name[v] as usize] = *value;
    }
    f.values = values;
}

pub fn all(random: &mut Random, f: &mut Function) {
    bury(random, f);
    if random.chance(40) {
        scatter(random, f);
    }
}
