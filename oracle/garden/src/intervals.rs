//! Live intervals: from a value's row to the last row where it is wanted.
use crate::model::{Block, Function};
use crate::rows::{Row, rows, term_rows, value_rows};

/// Which values are read: those in `also`, operands, and arguments for parameters that are read.
pub fn read_values(f: &Function, also: Vec<bool>) -> Vec<bool> {
    let rows = rows(f);
    let mut read = also;
    for row in &rows {
        row.operands().iter().for_each(|&v| read[v as usize] = true);
    }
    let passes: Vec<(u32, u32)> = rows.iter().flat_map(|row| row.passes(f)).collect();
    loop {
        let mut changed = false;
        for &(arg, param) in &passes {
            changed |= read[param as usize] && !std::mem::replace(&mut read[arg as usize], true);
        }
        if !changed {
            return read;
        }
    }
}

/// The values that a block's end uses, arguments of read parameters among them.
fn used_at_end(f: &Function, b: usize, read: &[bool]) -> Vec<u32> {
    let row = Row::Term(b, f.blocks[b].term.as_ref());
    let passed = row.passes(f).into_iter().filter(|&(_, param)| read[param as usize]).map(|(arg, _)| arg);
    row.operands().iter().copied().chain(passed).collect()
}

/// What is wanted at a block's start, from what is wanted at its end.
fn wanted_before(block: &Block, end: &[bool], used: &[u32]) -> Vec<bool> {
    let mut wanted = end.to_vec();
    used.iter().for_each(|&v| wanted[v as usize] = true);
    for instr in block.instrs.iter().rev() {
        instr.dst.iter().for_each(|&v| wanted[v as usize] = false);
        instr.operands.iter().for_each(|&v| wanted[v as usize] = true);
    }
    block.params.iter().for_each(|&p| wanted[p as usize] = false);
    wanted
}

/// The values wanted past each block, around loops too.
fn wanted_past(f: &Function, read: &[bool]) -> Vec<Vec<bool>> {
    let mut past = vec![vec![false; f.values.len()]; f.blocks.len()];
    let mut starts = past.clone();
    loop {
        let mut changed = false;
        for (b, block) in f.live_blocks().collect::<Vec<_>>().into_iter().rev() {
            for edge in block.term.iter().flat_map(|t| &t.edges) {
                for v in 0..f.values.len() {
                    past[b][v] |= starts[edge.to as usize][v];
                }
            }
            let start = wanted_before(block, &past[b], &used_at_end(f, b, read));
            changed |= start != starts[b];
            starts[b] = start;
        }
        if !changed {
            return past;
        }
    }
}

/// The last row where each value is wanted, its own where it isn't. Without `loops` only uses count, in the order of rows.
pub fn last_rows(f: &Function, read: &[bool], at: &[Option<u32>], loops: bool) -> Vec<u32> {
    let mut last: Vec<u32> = at.iter().map(|row| row.unwrap_or(0)).collect();
    let mut want = |v: u32, row: u32| last[v as usize] = last[v as usize].max(row);
    for (r, row) in rows(f).iter().enumerate() {
        row.operands().iter().for_each(|&v| want(v, r as u32));
        let passed = row.passes(f).into_iter().filter(|&(_, param)| read[param as usize]);
        passed.for_each(|(arg, _)| want(arg, r as u32));
    }
    if loops {
        let ends = term_rows(f);
        for (b, past) in wanted_past(f, read).iter().enumerate() {
            (0..past.len()).filter(|&v| past[v]).for_each(|v| want(v as u32, ends[b]));
        }
    }
    last
}

/// Gives every value the interval that it needs and no more.
pub fn exact(f: &mut Function) {
    let at = value_rows(f);
    let read = read_values(f, vec![false; f.values.len()]);
    for (v, last) in last_rows(f, &read, &at, true).into_iter().enumerate() {
        (f.values[v].start, f.values[v].end) = (at[v].unwrap_or(0), last);
    }
}
