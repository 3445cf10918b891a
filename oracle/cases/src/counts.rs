//! Refusal 2, TooMany: "an input count above the table, zero cases or entries". The rows of "Numbers" that an input can have. Judged of every
//! record, tombstones' too; rows are those of live blocks.
use crate::function::*;
use crate::list::Cases;

pub fn cases(cases: &mut Cases) {
    values(cases);
    blocks(cases);
    rows(cases);
    arguments(cases);
    parameters(cases);
    choices(cases);
    cases.add(0, "the largest: 16384 rows, 4096 values", &largest());
}

/// "values in a function: 4,096"
fn values(cases: &mut Cases) {
    for (number, count) in [(0, 4096), (2, 4097)] {
        let mut f = Function::new(1);
        let vs = f.values(count, 1, 1);
        f.block(&[]);
        f.instr(ALLOC, vs.last().copied(), &[], [0, 0, 0]);
        f.returns();
        cases.add(number, format!("{count} values"), &f);
    }
}

/// "blocks: 1,024"
fn blocks(cases: &mut Cases) {
    for (number, count) in [(0, 1024), (2, 1025)] {
        let mut f = Function::new(1);
        for _ in 0..count {
            f.block(&[]);
            f.returns();
        }
        cases.add(number, format!("{count} live blocks"), &f);
        f.blocks[1..].iter_mut().for_each(|b| b[TOMBSTONE] = 1);
        cases.add(number, format!("{count} blocks, all but block 0 tombstones"), &f);
    }
}

/// `count` blocks that share 254 Noops, 256 rows each.
fn sharing_noops(count: usize) -> Function {
    let mut f = smallest();
    (0..255).for_each(|_| f.instrs.push([NOOP, 0, 0, 0, 0, 0, 0, 0]));
    f.blocks[0][INSTRS] = 254;
    f.blocks = vec![f.blocks[0]; count];
    f.blocks.iter_mut().enumerate().for_each(|(i, b)| b[ID] = i as u32);
    f
}

/// "rows: 16,384": "live blocks in order take one row for parameters, one per instruction, one for the terminator"
fn rows(cases: &mut Cases) {
    let f = sharing_noops(64);
    cases.add(0, "16384 rows in 64 blocks", &f);
    cases.add(2, "16385 rows in 64 blocks", &f.but(|f| f.blocks[63][INSTRS] += 1));
    let more = sharing_noops(65);
    cases.add(2, "16640 rows in 65 blocks", &more);
    cases.add(0, "16384 rows in 64 blocks, and a tombstone", &more.but(|f| f.blocks[40][TOMBSTONE] = 1));
    // the instructions need not be there: 2 is judged before 3
    let f = smallest();
    cases.add(3, "16384 rows in a block, of no instruction", &f.but(|f| f.blocks[0][INSTRS] = 16382));
    cases.add(2, "16385 rows in a block, of no instruction", &f.but(|f| f.blocks[0][INSTRS] = 16383));
    // sums that pass 32 bits
    for count in [MAX - 1, MAX] {
        cases.add(2, format!("{count} instructions in a block"), &f.but(|f| f.blocks[0][INSTRS] = count));
    }
    let two = sharing_noops(2);
    let other = two.but(|f| {
        f.blocks[0][INSTRS] = (1 << 31) - 2;
        f.blocks[1][INSTRS] = (1 << 31) - 2;
    });
    cases.add(2, "2147483646 instructions in each of two blocks", &other);
    let other = two.but(|f| {
        f.blocks[1][INSTRS] = MAX;
        f.blocks[1][TOMBSTONE] = 1;
    });
    cases.add(0, "4294967295 instructions in a tombstone", &other);
}

/// "arguments of Call, Sys, Tail: N-2"
fn arguments(cases: &mut Cases) {
    for (number, count) in [(0, 0), (0, N - 2), (2, N - 1), (2, MAX)] {
        for (kind, name) in [(CALL, "Call"), (SYS, "Sys")] {
            let f = with_instr(kind).but(|f| {
                f.instrs[0][OPERANDS] = count;
                f.pool.extend([0; 64]);
            });
            cases.add(number, format!("{name} with {count} arguments"), &f);
        }
        let f = with_term(TAIL).but(|f| {
            f.blocks[0][TERM_OPERANDS] = count;
            f.pool.extend([0; 64]);
        });
        cases.add(number, format!("Tail with {count} arguments"), &f);
        // in a tombstone, and in no block
        let other = smallest().but(|f| {
            f.block(&[]);
            f.term(TAIL, &[], &[], [1, 0]);
            f.blocks[1][TOMBSTONE] = 1;
            f.blocks[1][TERM_OPERANDS] = count;
        });
        cases.add(number, format!("a tombstone's Tail with {count} arguments"), &other);
        let other = smallest().but(|f| {
            f.instrs.push([CALL, 0, 1, 0, count, 1, 0, 0]);
        });
        cases.add(number, format!("a Call of no block with {count} arguments"), &other);
    }
}

/// "parameters of block 0: N-2", "parameters of another block: 190"
fn parameters(cases: &mut Cases) {
    for (number, count) in [(0, N - 2), (2, N - 1)] {
        let mut f = Function::new(1);
        let params = f.values(count, 0, 0);
        f.block(&params);
        f.returns();
        cases.add(number, format!("{count} parameters of block 0"), &f);
    }
    for (number, count) in [(0, 190), (2, 191)] {
        let mut f = Function::new(1);
        let params = f.values(count, 2, 2);
        f.block(&[]);
        f.jump(1, &params);
        f.block(&params);
        f.returns();
        cases.add(number, format!("{count} parameters of block 1, unread"), &f);
        // read ones, with arguments that block 0 made: rows 0 to 191 block 0, 192 and 193 block 1
        let mut f = Function::new(1);
        let arguments: Vec<u32> = (0..count).map(|i| f.value(1 + i, 1 + count)).collect();
        let params = f.values(count, 2 + count, 3 + count);
        f.block(&[]);
        arguments.iter().for_each(|&v| f.instr(ALLOC, Some(v), &[], [0, 0, 0]));
        f.jump(1, &arguments);
        f.block(&params);
        f.returns();
        cases.add(number, format!("{count} parameters of block 1, read"), &f);
        let other = smallest().but(|f| {
            f.block(&[]);
            f.blocks[1][TOMBSTONE] = 1;
            f.blocks[1][PARAMS] = count;
        });
        cases.add(number, format!("{count} parameters of a tombstone"), &other);
    }
    // "moves in one list: 190": an edge has as many arguments as the block has parameters, which is 3
    let mut f = Function::new(1);
    let params = f.values(190, 2, 2);
    f.block(&[]);
    f.jump(1, &[&params[..], &params[..1]].concat());
    f.block(&params);
    f.returns();
    cases.add(3, "191 arguments for 190 parameters", &f);
}

/// A Switch with so many cases, all of key 0.
fn switching(count: u32) -> Function {
    with_term(SWITCH).but(|f| {
        f.blocks[0][TERM_Y] = count;
        f.blocks[0][EDGES] = count + 1;
        f.edges = vec![[1, 0, 0]; count as usize + 1];
        f.blocks[1][EDGES_FROM] = 0;
        f.constants = vec![[INT, 0, 0]; count as usize];
    })
}

/// "cases or entries: 1 to 1,024"
fn choices(cases: &mut Cases) {
    for (number, count) in [(2, 0), (0, 1), (0, 1024), (2, 1025)] {
        cases.add(number, format!("{count} cases"), &switching(count));
        let f = with_instr(LOOKUP).but(|f| {
            f.instrs[0][Y] = count;
            f.constants = vec![[INT, 0, 0]; 2 * count as usize + 1];
        });
        cases.add(number, format!("{count} entries"), &f);
        // in a tombstone, and in no block
        let other = smallest().but(|f| {
            f.block(&[]);
            f.term(SWITCH, &[0], &[], [0, count]);
            f.blocks[1][TOMBSTONE] = 1;
            f.blocks[1][EDGES] = count + 1;
        });
        cases.add(number, format!("{count} cases of a tombstone"), &other);
        let other = smallest().but(|f| {
            f.instrs.push([LOOKUP, 0, 1, 0, 1, 0, count, 0]);
        });
        cases.add(number, format!("{count} entries of no block"), &other);
    }
    cases.add(2, "4294967295 entries", &with_instr(LOOKUP).but(|f| f.instrs[0][Y] = MAX));
}

/// The largest function that is admitted, with a record for each row: 64 blocks of 254 instructions, of which 64 in each are a Bin over the two
/// parameters, and all others a Store of them. They share the list of the parameters.
fn largest() -> Function {
    let mut f = Function::new(1);
    let params = f.values(2, 0, 16384);
    for b in 0..64 {
        f.block(if b == 0 { &params } else { &[] });
        for i in 0..254 {
            if i < 64 && f.values.len() < 4096 {
                let row = f.row();
                let dst = f.value(row, row);
                f.instr(BIN, Some(dst), &[], [0, 0, 0]);
            } else {
                f.instr(STORE, None, &[], [0, 0, 0]);
            }
        }
        if b < 63 { f.jump(b + 1, &[]) } else { f.returns() }
    }
    f.instrs.iter_mut().for_each(|i| i[OPERANDS_AT..=OPERANDS].copy_from_slice(&[0, 2]));
    assert!(f.values.len() == 4096 && f.row() == 16383);
    f
}

/// Functions to time, which no gate has to judge.
pub fn slow(cases: &mut Cases) {
    // the largest with a word too few: what it takes to read a case
    let words = largest().words();
    cases.words(1, "the largest, a word too few", &words[..words.len() - 1]);
    cases.add(0, "edges shared by 1022 Switches", &sharing_edges(1022));
    cases.add(0, "edges of one Switch", &sharing_edges(1));
    cases.add(0, "keys shared by 4095 Lookups", &sharing_keys(4095));
}

/// Blocks that each end in the same Switch of 1,024 cases, all edges to the last block, with 190 arguments for 190 read parameters. Block 0 makes
/// the arguments.
fn sharing_edges(count: u32) -> Function {
    let mut f = Function::new(1);
    // rows: 0 to 191 block 0, then two for each
    let last = 192 + 2 * count;
    let arguments: Vec<u32> = (0..190).map(|i| f.value(1 + i, last)).collect();
    let params = f.values(190, last, last + 1);
    f.block(&[]);
    arguments.iter().for_each(|&v| f.instr(ALLOC, Some(v), &[], [0, 0, 0]));
    f.jump(1, &[]);
    let at = f.pool.len() as u32;
    f.pool.extend(&arguments);
    let first = f.edges.len() as u32;
    f.edges.extend(vec![[count + 1, at, 190]; 1025]);
    (0..1024).for_each(|key| _ = f.constant(INT, key));
    for _ in 0..count {
        f.block(&[]);
        f.term(SWITCH, &arguments[..1], &[], [0, 1024]);
        let block = f.blocks.last_mut().unwrap();
        block[EDGES_FROM] = first;
        block[EDGES] = 1025;
    }
    f.block(&params);
    f.returns();
    f
}

/// Lookups of the same 1,024 entries.
fn sharing_keys(count: u32) -> Function {
    let mut f = Function::new(1);
    let subject = f.value(0, count);
    (0..2049).for_each(|i| _ = f.constant(INT, i / 2));
    f.block(&[subject]);
    for i in 0..count {
        let dst = f.value(1 + i, 1 + i);
        f.instr(LOOKUP, Some(dst), &[subject], [0, 1024, 0]);
    }
    f.returns();
    f
}
