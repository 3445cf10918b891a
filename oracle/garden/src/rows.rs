//! Rows, as document 01 numbers them: live blocks in order take one for parameters, one per instruction, one for the terminator.
use crate::model::{Block, Function, Instr, Term};

pub enum Row<'f> {
    Params(&'f Block),
    Instr(&'f Instr),
    Term(usize, Option<&'f Term>),
}

pub fn rows(f: &Function) -> Vec<Row<'_>> {
    let mut rows = vec![];
    for (index, block) in f.live_blocks() {
        rows.push(Row::Params(block));
        rows.extend(block.instrs.iter().map(Row::Instr));
        rows.push(Row::Term(index, block.term.as_ref()));
    }
    rows
}

impl Row<'_> {
    pub fn defines(&self) -> Vec<u32> {
        match self {
            Row::Params(block) => block.params.clone(),
            Row::Instr(instr) => instr.dst.into_iter().collect(),
            Row::Term(..) => vec![],
        }
    }

    /// Operands of an instruction or terminator; the arguments of edges are apart.
    pub fn operands(&self) -> &[u32] {
        match self {
            Row::Params(_) | Row::Term(_, None) => &[],
            Row::Instr(instr) => &instr.operands,
            Row::Term(_, Some(term)) => &term.operands,
        }
    }

    /// Each edge's arguments beside the parameters that they are for.
    pub fn passes(&self, f: &Function) -> Vec<(u32, u32)> {
        let Row::Term(_, Some(term)) = self else { return vec![] };
        let pairs = term.edges.iter().flat_map(|e| e.args.iter().copied().zip(f.blocks[e.to as usize].params.iter().copied()));
        pairs.collect()
    }
}

/// The row of each value, none for one that is not defined.
pub fn value_rows(f: &Function) -> Vec<Option<u32>> {
    let mut at = vec![None; f.values.len()];
    for (r, row) in rows(f).iter().enumerate() {
        row.defines().iter().for_each(|&v| at[v as usize] = Some(r as u32));
    }
    at
}

/// The row of each block's terminator, 0 for a tombstone.
pub fn term_rows(f: &Function) -> Vec<u32> {
    let mut at = vec![0; f.blocks.len()];
    for (r, row) in rows(f).iter().enumerate() {
        if let Row::Term(b, _) = row {
            at[*b] = r as u32;
        }
    }
    at
}
