//! The worked example of docs/INPUT.md, document 01's example 7: its words, its places, and the ops that docs/OPS.md has for it.
use garden::check::judge;
use garden::compile::compile;
use garden::model::{Block, Does, Ends, Function, Instr, Program, Term, Value};

fn example() -> Function {
    let sum = Instr { span: 0, dst: Some(2), operands: vec![0, 1], does: Does::Bin { op: 0 } };
    let back = Term { span: 0, operands: vec![2], edges: vec![], ends: Ends::Return };
    let block = Block { id: 0, tombstone: false, params: vec![0, 1], instrs: vec![sum], term: Some(back) };
    let values = [(0, 1), (0, 1), (1, 2)].map(|(start, end)| Value { start, end, hint: None });
    Function { id: 1, span: 0, unused: false, values: values.to_vec(), blocks: vec![block] }
}

#[test]
fn words() {
    let head = [1, 0, 0, 3, 1, 1, 0, 0, 5, 23, 37, 45, 45, 45];
    let values = [0, 1, 0, 0, 1, 0, 1, 2, 0];
    let block = [0, 0, 0, 2, 0, 1, 1, 0, 4, 1, 0, 0, 0, 0];
    let instr = [0, 0, 3, 2, 2, 0, 0, 0];
    let pool = [0, 1, 0, 1, 2];
    let all: Vec<u32> = head.into_iter().chain(values).chain(block).chain(instr).chain(pool).collect();
    assert_eq!(all.len(), 50);
    assert_eq!(example().to_words(), all);
}

#[test]
fn ops() {
    assert_eq!(judge(&example(), &|_| false), 0);
    let done = compile(&Program { functions: vec![example()], table: vec![0, 0], strings_first: true });
    assert_eq!(done.code.ops, [0x0000000001000023, 0x0000000000000002, 0x0000000000000021]);
    assert_eq!(done.code.functions, [0, 1]);
    assert_eq!(done.each[0].0.places, [1, 2, 1]);
}
