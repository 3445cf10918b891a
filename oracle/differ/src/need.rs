//! How much room a function takes, by docs/INPUT.md and by what the Rust made of it, and buffers of that size.
use crate::ours::{Lent, Used};
use garden::compile::Compiled;
use garden::model::Program;

/// What stands in every word that is lent.
pub const MARK: u32 = 0xa5a5_5a5a;
pub const MARK_64: u64 = 0xa5a5_5a5a_0f0f_f0f0;

/// The labels of a function, from the counts in its head.
pub fn labels(words: &[u32]) -> usize {
    let (blocks, edges) = (words[4] as usize, words[6] as usize);
    2 * blocks + (blocks * edges).min(32767)
}

/// What the program uses at its end. Slots of tables are counted over all tables.
pub fn at_end(done: &Compiled) -> Used {
    Used {
        ops: done.code.ops.len() as u64,
        globals: done.globals.len() as u64,
        builtins: done.builtins.len() as u64,
        switches: done.code.switches.len() as u64,
        targets: done.code.switches.iter().map(|t| t.targets.len() as u64).sum(),
        lookups: done.lookups.len() as u64,
        values: done.lookups.iter().map(|t| t.values.len() as u64).sum(),
    }
}

/// The used lengths when so many tables of each kind are there.
pub fn after(done: &Compiled, used: garden::compile::Used) -> Used {
    let (switches, lookups) = (used.switches as usize, used.lookups as usize);
    Used {
        ops: used.ops as u64,
        globals: used.globals as u64,
        builtins: used.builtins as u64,
        switches: used.switches as u64,
        targets: done.code.switches[..switches].iter().map(|t| t.targets.len() as u64).sum(),
        lookups: used.lookups as u64,
        values: done.lookups[..lookups].iter().map(|t| t.values.len() as u64).sum(),
    }
}

/// Buffers with room for the whole program and as much more as `slack` says, each word a mark.
pub fn buffers(program: &Program, words: &[Vec<u32>], done: &Compiled, slack: &mut dyn FnMut() -> usize) -> Lent {
    let end = at_end(done);
    let values = words.iter().map(|w| w[3] as usize).max().unwrap_or(0);
    let labels = words.iter().map(|w| labels(w)).max().unwrap_or(0);
    let mut wide = |n: u64| vec![MARK_64; n as usize + slack()];
    let (ops, globals, switches) = (wide(end.ops), wide(2 * end.globals), wide(3 * end.switches));
    let (lookups, held) = (wide(5 * end.lookups), wide(2 * end.values));
    let (noted, labels) = (wide(values as u64), wide(labels as u64));
    let mut narrow = |n: u64| vec![MARK; n as usize + slack()];
    let (spans, builtins, targets) = (narrow(end.ops), narrow(end.builtins), narrow(end.targets));
    let (places, hints) = (narrow(values as u64), narrow(values as u64));
    let functions = program.table.clone();
    Lent { functions, ops, spans, globals, builtins, switches, targets, lookups, values: held, places, hints, noted, labels, used: Used::default() }
}
