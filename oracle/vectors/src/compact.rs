//! Programs before and after nop compaction.
//!
//! File: the number of programs; each is written twice, before and after: the number of ops, their words, low half first, their spans; the
//! number of entries of its switch tables, those entries, table after table; the number of words of its function table, those words, low half
//! first.
//!
//! Behind the line on the file the program that replays it prints one for each call that it makes by hand and that is refused, with document
//! 01's number.
use garden::bc::Cc;
use garden::compile::{Code, compact, compile_then, empty};
use garden::op::{LookupTable, Op, SwitchKind, SwitchTable};
use garden::random::{Style, program};
use garden::rng::Random;
use garden::{AllocType, Value};
use std::ptr::NonNull;

const SEED: u64 = 0x4f08286203;

/// The calls by hand. The numbers are document 01's, not the Rust's, which judges nothing.
const REFUSED: &str = "\
Jmp 9 alone: 11
a word that is no op: 1
a used length beyond the ops: 2
a used length beyond the spans: 2
a used length beyond the switch entries: 2
work room one short: 9
a switch entry beyond the ops: 11
a function start beyond the ops: 11
a word that is no op, and a target beyond the ops: 1
work room one short, and a target beyond the ops: 9
65535 ops: 2";

/// Document 01's most ops of a program.
const MOST_OPS: usize = 65534;

/// Not there, bytecode at three pcs, native code whose numbers could be pcs.
fn functions(ops: usize) -> Vec<u64> {
    let bytecode = |pc: usize| 1 | (pc as u64) << 2;
    vec![0, bytecode(0), bytecode(ops / 2), bytecode(ops), 2 | 1 << 2, 3 | 2 << 2]
}

/// A program of these ops and two tables, the second one the first backwards.
fn with_targets(ops: Vec<Op>, targets: Vec<u16>) -> (Code, Code) {
    let table = functions(ops.len());
    let mut cc = empty(&table);
    for targets in [targets.clone(), targets.into_iter().rev().collect()] {
        cc.switch_tables.push(Box::new(SwitchTable { first: 5, targets: targets.into() }));
    }
    cc.pc_to_span = (0..ops.len() as u32).map(|pc| 1000 + pc).collect();
    cc.buf = ops;
    compact(cc, table.len())
}

/// A program of these ops whose tables lead to every pc and the end.
fn every_target(ops: Vec<Op>) -> (Code, Code) {
    let all: Vec<u16> = (0..=ops.len() as u16).collect();
    with_targets(ops, all)
}

/// Each op that holds a pc, at this one.
fn holding(pc: u16) -> Vec<Op> {
    vec![
        Op::Jmp { target: pc },
        Op::JmpT { cond: 1, target: pc },
        Op::JmpF { cond: 2, target: pc },
        Op::JmpEqI { lhs: 3, imm: -1, target: pc },
        Op::JmpNeI { lhs: 4, imm: 70000, target: pc },
        Op::JmpSEq { lhs: 5, rhs: 6, target: pc },
        Op::JmpSNe { lhs: 7, rhs: 8, target: pc },
        Op::Tail { func: pc as u32 },
        Op::Call { func: pc as u32 },
    ]
}

/// Ops of the same fields.
macro_rules! each {
    ($fields:tt; $($name:ident)*) => { [$(each!(@ $name $fields)),*] };
    (@ $name:ident { $($field:ident: $value:expr),* }) => { Op::$name { $($field: $value),* } };
}

/// Each op that holds none, its fields small numbers that could be taken for pcs.
fn plain() -> Vec<Op> {
    let mut ops = vec![
        Op::Halt,
        Op::Mov { dst: 1, src: 1 },
        Op::LoadI { dst: 1, value: 2 },
        Op::LoadG { dst: 1, idx: 2 },
        Op::Sys { idx: 1, argc: 2 },
        Op::Native { idx: 2, returns_double: true },
        Op::StoreSlot { slot: 2, src: 1 },
        Op::LoadSlot { dst: 1, slot: 2 },
        Op::Alloc { dst: 1, kind: AllocType(2), size: 3, align: 4 },
        Op::Store { base: 1, offset: 2, src: 3 },
        Op::Ret,
        Op::Push { src: 1 },
        Op::Pop { dst: 1 },
        Op::Assert { cond: 1 },
    ];
    ops.extend(each!({ a: 1, b: 2 }; Push2 Pop2));
    ops.extend(each!({ a: 1, b: 2, c: 3 }; Push3 Pop3));
    ops.extend(each!({ dst: 1, src: 2 }; CastToInt CastToDouble CastToBool));
    ops.extend(each!({ dst: 1, base: 2, offset: 3 }; Load AddrOf));
    ops.extend(each!({ dst: 1, lhs: 2, rhs: 3 }; IAdd ISub IMul IDiv IMod IAnd ILt IGt IEq DAdd DSub DMul DDiv DLt DGt BEq SEq));
    ops.extend(each!({ dst: 1, lhs: 2, imm: 3 }; IAddI ISubI IMulI IDivI IModI IAndI IEqI IGtI ILtI));
    ops
}

/// The ops with runs of Nops put in: so many before the op at each place.
fn with_nops(ops: &[Op], runs: &[(usize, usize)]) -> Vec<Op> {
    let mut out = vec![];
    for pc in 0..=ops.len() {
        runs.iter().filter(|(at, _)| *at == pc).for_each(|&(_, n)| out.extend(vec![Op::Nop; n]));
        out.extend(ops.get(pc));
    }
    out
}

/// Every op that has a table, and tables that lead past Nops.
fn with_tables() -> (Code, Code) {
    let mut cc: Cc = empty(&functions(6));
    cc.switch_tables = [vec![1, 6, 2], vec![3]].map(|targets| Box::new(SwitchTable { first: 9, targets: targets.into() })).into();
    cc.lookup_tables = vec![Box::new(LookupTable { first: 4, values: [Value(1, 3)].into(), default: Value::UNDEF })];
    let switch = |t: usize| Op::Switch { kind: SwitchKind::Int, subject: 3, table: NonNull::from(&*cc.switch_tables[t]) };
    let lookup = Op::Lookup { kind: SwitchKind::Int, dst: 1, subject: 2, table: NonNull::from(&*cc.lookup_tables[0]) };
    cc.buf = vec![switch(1), Op::Nop, Op::Nop, switch(0), lookup, Op::Nop];
    cc.pc_to_span = (0..6).collect();
    compact(cc, 6)
}

/// A program of so many ops, every other one Nop, whose pcs and tables lead everywhere.
fn half_nops(count: usize) -> (Code, Code) {
    let plain = plain();
    let op = |pc: usize| match pc % 4 {
        1 => holding((pc * 7919 % (count + 1)) as u16)[pc / 4 % 9],
        3 => plain[pc / 4 % plain.len()],
        _ => Op::Nop,
    };
    // as many as a table may have where there are as many ops as there may be
    let slots = count / 16 + 1;
    let targets = (0..slots).map(|k| (k * count / (slots - 1).max(1)) as u16).collect();
    with_targets((0..count).map(op).collect(), targets)
}

fn by_hand() -> Vec<(Code, Code)> {
    let kinds = [plain(), holding(0)].concat();
    let end = kinds.len();
    let mut all: Vec<(Code, Code)> = [0, 1, 7].into_iter().map(|n| every_target(vec![Op::Nop; n])).collect();
    // runs at the start, in the middle, at the end, between all, and none
    for runs in [&[][..], &[(0, 1)], &[(0, 5)], &[(20, 1), (21, 3)], &[(end, 1)], &[(end, 4)], &[(0, 2), (9, 2), (end, 2)]] {
        all.push(every_target(with_nops(&kinds, runs)));
    }
    let between: Vec<(usize, usize)> = (0..=end).map(|pc| (pc, pc % 3)).collect();
    all.push(every_target(with_nops(&kinds, &between)));
    // a pc at each place of a short program, the end too
    all.extend((0..=12).map(|pc| every_target(with_nops(&holding(pc), &[(0, 1), (4, 2)]))));
    // pcs that need both of their bytes
    let wide: Vec<Op> = (0..70).flat_map(|k| with_nops(&holding(k * 10), &[(k as usize % 9, 1)])).collect();
    let (before, after) = every_target(wide);
    assert!(before.ops.len() > 512 && after.ops.len() > 512);
    all.extend([(before, after), with_tables(), half_nops(MOST_OPS)]);
    all
}

/// As compiled, with moves of a register to itself taken out, and with any op taken out.
fn compiled(k: u64) -> (Code, Code) {
    let random = &mut Random::numbered(SEED, k);
    let program = program(random, 3, &mut |random| Style { kept: random.one_of(&[0, 0, 10, 35]), switches: 30, ..Style::small() });
    let done = compile_then(&program, &mut |ops| {
        for op in ops {
            let own = matches!(op, Op::Mov { dst, src } if dst == src);
            if k % 3 > 0 && own || k % 3 == 2 && random.chance(25) {
                *op = Op::Nop;
            }
        }
    });
    (done.code, done.compacted)
}

fn write(out: &mut Vec<u32>, code: &Code) {
    let wide = |words: &[u64]| words.iter().flat_map(|&w| [w as u32, (w >> 32) as u32]).collect::<Vec<u32>>();
    let targets: Vec<u32> = code.switches.iter().flat_map(|t| t.targets.clone()).collect();
    out.push(code.ops.len() as u32);
    out.extend(wide(&code.ops));
    out.extend(&code.spans);
    out.push(targets.len() as u32);
    out.extend(targets);
    out.push(code.functions.len() as u32);
    out.extend(wide(&code.functions));
}

fn file(all: &[(Code, Code)]) -> Vec<u32> {
    let mut out = vec![all.len() as u32];
    for (before, after) in all {
        write(&mut out, before);
        write(&mut out, after);
    }
    out
}

pub fn vectors() -> (Vec<u32>, String) {
    let mut all = by_hand();
    all.extend((0..75).map(compiled));
    let ops: usize = all.iter().map(|(before, _)| before.ops.len()).sum();
    (file(&all), format!("{} programs, {ops} ops, 0 differ\n{REFUSED}", all.len()))
}

/// A program of so many ops, half of them Nops, many times over, to time it; or one that is refused at its first op, for the time of the rest.
pub fn repeat(ops: usize, count: usize, refused: bool) -> (Vec<u32>, String) {
    let (mut before, after) = half_nops(ops);
    if refused {
        before.ops[0] = 61;
    }
    let differ = if refused { count } else { 0 };
    (file(&vec![(before, after); count]), format!("{count} programs, {} ops, {differ} differ", ops * count))
}
