//! Functions by hand. Values are numbered as the caller likes, and get the intervals that they need and no more; a case that wants another
//! interval or a hint sets it afterwards.
use garden::check::judge;
use garden::intervals::exact;
use garden::model::{Block, Constant, Does, Edge, Ends, Function, Instr, Term, Value};

pub fn instr(dst: u32, does: Does, operands: &[u32]) -> Instr {
    Instr { span: 100 + dst, dst: Some(dst), operands: operands.to_vec(), does }
}

pub fn load(dst: u32, constant: Constant) -> Instr {
    instr(dst, Does::LoadConst(constant), &[])
}

/// So many values from `first` on, each loaded with its own number.
pub fn loads(first: u32, count: u32) -> Vec<Instr> {
    (first..first + count).map(|v| load(v, Constant::Int(v as i64))).collect()
}

pub fn add(dst: u32, lhs: u32, rhs: u32) -> Instr {
    instr(dst, Does::Bin { op: 0 }, &[lhs, rhs])
}

pub fn call(dst: u32, function: u32, args: &[u32]) -> Instr {
    instr(dst, Does::Call { function }, args)
}

pub fn sys(dst: u32, builtin: u32, args: &[u32]) -> Instr {
    instr(dst, Does::Sys { builtin }, args)
}

/// The sum of values from `first` on, `count` of them, into as many new ones less one from `dst` on.
pub fn sum(dst: u32, first: u32, count: u32) -> Vec<Instr> {
    (1..count).map(|k| add(dst + k - 1, if k == 1 { first } else { dst + k - 2 }, first + k)).collect()
}

pub fn edge(to: u32, args: &[u32]) -> Edge {
    Edge { to, args: args.to_vec() }
}

fn term(ends: Ends, operands: &[u32], edges: Vec<Edge>) -> Option<Term> {
    Some(Term { span: 50, operands: operands.to_vec(), edges, ends })
}

pub fn ret(value: u32) -> Option<Term> {
    term(Ends::Return, &[value], vec![])
}

pub fn ret_nothing() -> Option<Term> {
    term(Ends::Return, &[], vec![])
}

pub fn jump(to: u32, args: &[u32]) -> Option<Term> {
    term(Ends::Jump, &[], vec![edge(to, args)])
}

pub fn branch(cond: u32, no: Edge, yes: Edge) -> Option<Term> {
    term(Ends::Branch, &[cond], vec![no, yes])
}

pub fn tail(function: u32, args: &[u32]) -> Option<Term> {
    term(Ends::Tail { function }, args, vec![])
}

pub fn switch(subject: u32, cases: Vec<(i64, Edge)>, default: Edge) -> Option<Term> {
    let (keys, mut edges): (Vec<Constant>, Vec<Edge>) = cases.into_iter().map(|(key, edge)| (Constant::Int(key), edge)).unzip();
    edges.push(default);
    term(Ends::Switch { keys }, &[subject], edges)
}

pub fn block(params: &[u32], instrs: Vec<Instr>, term: Option<Term>) -> Block {
    Block { id: 0, tombstone: false, params: params.to_vec(), instrs, term }
}

/// A block that no edge may go to, holding what another one holds.
pub fn tombstone(like: &Block) -> Block {
    Block { tombstone: true, ..like.clone() }
}

/// The function of these blocks; block ids are set here.
pub fn function(id: u32, blocks: Vec<Block>) -> Function {
    let defined = |b: &Block| b.params.iter().copied().chain(b.instrs.iter().filter_map(|i| i.dst)).max();
    let count = blocks.iter().filter_map(defined).max().map_or(0, |v| v + 1);
    let mut f = Function { id, span: 7, unused: false, values: vec![Value::default(); count as usize], blocks };
    f.blocks.iter_mut().enumerate().for_each(|(b, block)| block.id = b as u32);
    exact(&mut f);
    f
}

/// With another end for a value, or a first hint.
pub fn ending(mut f: Function, value: u32, end: u32) -> Function {
    f.values[value as usize].end = end;
    f
}

pub fn hinted(mut f: Function, hints: &[(u32, u8)]) -> Function {
    hints.iter().for_each(|&(v, r)| f.values[v as usize].hint = Some(r));
    f
}

/// Panics unless document 01 admits the function, whatever it calls.
pub fn admitted(f: &Function) {
    assert_eq!(judge(f, &|_| true), 0, "{f:?}");
}
