//! Refusal 3, BadShape, over the live blocks.
use crate::function::*;
use crate::list::Cases;

pub fn cases(cases: &mut Cases) {
    ids(cases);
    targets(cases);
    argument_counts(cases);
    values_in_range(cases);
    places_in_range(cases);
    constants_in_range(cases);
    operators(cases);
    casts(cases);
    terminators(cases);
    tombstones(cases);
}

/// "block id not its index; block 0 not live"
fn ids(cases: &mut Cases) {
    let f = with_term(JUMP);
    for (number, block, id) in [(0, 0, 0), (3, 0, 1), (3, 0, MAX), (0, 1, 1), (3, 1, 0), (3, 1, 2)] {
        cases.add(number, format!("block {block} with id {id}"), &f.but(|f| f.blocks[block][ID] = id));
    }
    cases.add(3, "block 0 is a tombstone", &smallest().but(|f| f.blocks[0][TOMBSTONE] = 1));
    cases.add(3, "block 0 is a tombstone, block 1 is live", &f.but(|f| f.blocks[0][TOMBSTONE] = 1));
    cases.add(3, "no block", &Function::new(1));
    cases.add(3, "no block of the root", &Function::new(0));
}

/// "edge to a tombstone or a missing block", of every edge
fn targets(cases: &mut Cases) {
    for TermKind(kind, name, _, edges, _) in TERM_KINDS {
        for e in 0..edges as usize {
            let f = with_term(kind).but(|f| {
                let id = f.block(&[]);
                f.returns();
                f.edges[e][TARGET] = id;
            });
            cases.add(0, format!("{name}, edge {e} to block 2"), &f);
            cases.add(3, format!("{name}, edge {e} to a tombstone"), &f.but(|f| f.blocks[2][TOMBSTONE] = 1));
            cases.add(3, format!("{name}, edge {e} to block 3 of 3"), &f.but(|f| f.edges[e][TARGET] = 3));
            cases.add(3, format!("{name}, edge {e} to block 4294967295"), &f.but(|f| f.edges[e][TARGET] = MAX));
        }
    }
    // what stands behind the blocks is no block: here zeros
    let mut f = Function::new(1);
    f.block(&[]);
    f.jump(0, &[]);
    f.pool.extend([0; 20]);
    cases.add(0, "the only block, with a Jump to itself", &f);
    cases.add(3, "the only block, with a Jump to block 1", &f.but(|f| f.edges[0][TARGET] = 1));
    // and what stands far behind the edges is none
    cases.add(3, "the only block, with its edge at 4294967295", &f.but(|f| f.blocks[0][EDGES_FROM] = MAX));
    cases.add(0, "an edge of no block, to a missing block", &with_term(RETURN).but(|f| f.edges[0][TARGET] = 9));
}

/// "edge and parameter counts differ", of every edge
fn argument_counts(cases: &mut Cases) {
    for TermKind(kind, name, _, edges, _) in TERM_KINDS {
        for e in 0..edges as usize {
            // block 2 has two parameters that are unread; arguments are those of block 0's list
            let f = with_term(kind).but(|f| {
                let params = f.values(2, 4, 4);
                let id = f.block(&params);
                f.returns();
                f.edges[e] = [id, 0, 2];
            });
            cases.add(0, format!("{name}, edge {e} with 2 arguments for 2 parameters"), &f);
            for count in [0, 1, 3, MAX] {
                cases.add(3, format!("{name}, edge {e} with {count} arguments for 2 parameters"), &f.but(|f| f.edges[e][ARGS] = count));
            }
        }
    }
    cases.add(3, "Jump with an argument for no parameter", &with_term(JUMP).but(|f| f.edges[0][ARGS] = 1));
}

/// "a value .. out of range", of every list
fn values_in_range(cases: &mut Cases) {
    for InstrKind(kind, name, has_dst, operands, _) in INSTR_KINDS {
        let f = with_instr(kind);
        if has_dst {
            // values 0 to 2: the destination's word is the value and 1
            cases.add(3, format!("{name} into value 3 of 3"), &f.but(|f| f.instrs[0][DST] = 4));
            cases.add(3, format!("{name} into value 4294967294"), &f.but(|f| f.instrs[0][DST] = MAX));
        }
        for i in 0..operands as usize {
            // the operands stand behind the two parameters
            cases.add(3, format!("{name}, operand {i} is value 3 of 3"), &f.but(|f| f.pool[2 + i] = 3));
            cases.add(3, format!("{name}, operand {i} is value 4294967295"), &f.but(|f| f.pool[2 + i] = MAX));
        }
    }
    for TermKind(kind, name, operands, _, _) in TERM_KINDS {
        let f = with_term(kind);
        for i in 0..operands as usize {
            cases.add(3, format!("{name}, operand {i} is value 2 of 2"), &f.but(|f| f.pool[2 + i] = 2));
            cases.add(3, format!("{name}, operand {i} is value 4294967295"), &f.but(|f| f.pool[2 + i] = MAX));
        }
    }
    let f = with_term(JUMP).but(|f| {
        let param = f.value(4, 4);
        let id = f.block(&[param]);
        f.returns();
        let at = f.pool.len() as u32;
        f.pool.push(0);
        f.edges[0] = [id, at, 1];
    });
    // even where the parameter is unread
    let last = f.pool.len() - 1;
    cases.add(0, "an argument, value 0 of 3", &f);
    cases.add(3, "an argument, value 3 of 3", &f.but(|f| f.pool[last] = 3));
    let param = f.blocks[2][PARAMS_AT] as usize;
    cases.add(3, "a parameter, value 3 of 3", &f.but(|f| f.pool[param] = 3));
    cases.add(3, "a parameter of block 0, value 3 of 3", &f.but(|f| f.pool[0] = 3));
    cases.add(0, "a number of no list, value 3 of 3", &f.but(|f| f.pool.push(3)));
}

/// "a .. pool number out of range": the places of lists in the tables. The place of an empty list is any place within its table.
fn places_in_range(cases: &mut Cases) {
    // block 0: two parameters, a Bin of them, a Branch to block 1 with an argument; the two stand at the end of the pool once more
    let mut f = Function::new(1);
    let params = f.values(2, 0, 2);
    let (dst, unread) = (f.value(1, 1), f.value(3, 3));
    f.block(&params);
    f.instr(BIN, Some(dst), &params, [0, 0, 0]);
    f.term(BRANCH, &params[..1], &[(1, &params[..1]), (1, &params[..1])], [0, 0]);
    f.block(&[unread]);
    f.returns();
    f.pool.extend(&params);
    let pool = f.pool.len() as u32;
    // the last place of each
    for (name, block, field, last) in [
        ("parameters", 0, PARAMS_AT, pool - 2),
        ("instructions", 0, FIRST, 0),
        ("a terminator's operand", 0, TERM_OPERANDS_AT, pool - 1),
        ("edges", 0, EDGES_FROM, 0),
        ("no instructions", 1, FIRST, 1),
        ("no operands", 1, TERM_OPERANDS_AT, pool),
        ("no edges", 1, EDGES_FROM, 2),
    ] {
        for (number, at) in [(0, last), (3, last + 1), (3, MAX)] {
            cases.add(number, format!("{name}, at {at}"), &f.but(|f| f.blocks[block][field] = at));
        }
    }
    for (number, at) in [(0, pool - 2), (3, pool - 1), (3, MAX)] {
        cases.add(number, format!("a Bin's operands, at {at} of {pool}"), &f.but(|f| f.instrs[0][OPERANDS_AT] = at));
    }
    for (number, at) in [(0, pool - 1), (3, pool), (3, MAX)] {
        cases.add(number, format!("an edge's argument, at {at} of {pool}"), &f.but(|f| f.edges[1][ARGS_AT] = at));
    }
    // no parameters, no operands, no arguments
    let f = with_instr(NOOP).but(|f| f.blocks[0][PARAMS] = 0);
    let pool = f.pool.len() as u32;
    for (number, at) in [(0, 0), (0, pool), (3, pool + 1), (3, MAX)] {
        cases.add(number, format!("no parameters, at {at} of {pool}"), &f.but(|f| f.blocks[0][PARAMS_AT] = at));
        cases.add(number, format!("a Noop's operands, at {at} of {pool}"), &f.but(|f| f.instrs[0][OPERANDS_AT] = at));
    }
    let f = with_term(JUMP);
    let pool = f.pool.len() as u32;
    for (number, at) in [(0, 0), (0, pool), (3, pool + 1), (3, MAX)] {
        cases.add(number, format!("no arguments, at {at} of {pool}"), &f.but(|f| f.edges[0][ARGS_AT] = at));
    }
    // more instructions, or edges, than there are
    let f = with_instr(NOOP);
    cases.add(3, "two instructions of one", &f.but(|f| f.blocks[0][INSTRS] = 2));
    let f = with_term(SWITCH).but(|f| f.edges.truncate(1));
    cases.add(3, "two edges of one", &f.but(|f| f.blocks[1][EDGES_FROM] = 0));
}

/// Constants are numbers of such a pool too.
fn constants_in_range(cases: &mut Cases) {
    let f = with_instr(LOAD_CONST);
    for (number, x) in [(0, 2), (3, 3), (3, MAX)] {
        cases.add(number, format!("LoadConst of constant {x} of 3"), &f.but(|f| f.instrs[0][X] = x));
    }
    // key, value .., and then the default
    let f = with_instr(LOOKUP).but(|f| {
        f.constant(INT, 0);
    });
    for (number, x, y) in [(0, 0, 1), (0, 1, 1), (3, 2, 1), (3, 3, 1), (3, 0, 2), (3, MAX, 1)] {
        let other = f.but(|f| {
            f.instrs[0][X] = x;
            f.instrs[0][Y] = y;
        });
        cases.add(number, format!("Lookup of {y} entries from constant {x} of 4"), &other);
    }
    let f = with_term(SWITCH);
    for (number, x) in [(0, 0), (3, 1), (3, MAX)] {
        cases.add(number, format!("Switch on a case from constant {x} of 1"), &f.but(|f| f.blocks[0][TERM_X] = x));
    }
}

/// "an operator .. the Rust calls unreachable": `emit_bin_imms!` has IAdd to IEq, BranchCmpImm takes IEq alone, BranchCmp SEq alone. Operators
/// are numbered in ir's order.
fn operators(cases: &mut Cases) {
    const NAMES: [&str; 17] =
        ["IAdd", "ISub", "IMul", "IDiv", "IMod", "IAnd", "ILt", "IGt", "IEq", "DAdd", "DSub", "DMul", "DDiv", "DLt", "DGt", "BEq", "SEq"];
    const IMMEDIATE: [&str; 9] = ["IAdd", "ISub", "IMul", "IDiv", "IMod", "IAnd", "IEq", "IGt", "ILt"];
    let number = |there: bool| if there { 0 } else { 3 };
    for (op, name) in NAMES.into_iter().enumerate() {
        cases.add(0, format!("Bin {name}"), &with_instr(BIN).but(|f| f.instrs[0][X] = op as u32));
        let imm = with_instr(BIN_IMM).but(|f| f.instrs[0][X] = op as u32);
        cases.add(number(IMMEDIATE.contains(&name)), format!("BinImm {name}"), &imm);
        let branch = with_term(BRANCH_CMP_IMM).but(|f| f.blocks[0][TERM_X] = op as u32);
        cases.add(number(name == "IEq"), format!("BranchCmpImm {name}"), &branch);
        let branch = with_term(BRANCH_CMP).but(|f| f.blocks[0][TERM_X] = op as u32);
        cases.add(number(name == "SEq"), format!("BranchCmp {name}"), &branch);
    }
}

/// "a .. cast the Rust calls unreachable": x is the type to, y the type from.
fn casts(cases: &mut Cases) {
    const TYPES: [&str; 4] = ["Int", "Double", "Bool", "another"];
    const CASTS: [(&str, &str); 4] = [("Int", "Double"), ("Double", "Int"), ("Int", "Bool"), ("Bool", "Int")];
    for (y, from) in TYPES.into_iter().enumerate() {
        for (x, to) in TYPES.into_iter().enumerate() {
            let f = with_instr(CAST).but(|f| f.instrs[0][X..].copy_from_slice(&[x as u32, y as u32, 0]));
            let number = if CASTS.contains(&(from, to)) { 0 } else { 3 };
            cases.add(number, format!("Cast from {from} to {to}"), &f);
        }
    }
}

/// "no terminator, except in the root's last live block"
fn terminators(cases: &mut Cases) {
    let lacking = |id: u32, marks: &[u32], without: usize| {
        let mut f = Function::new(id);
        for &mark in marks {
            f.block(&[]);
            f.returns();
            f.blocks.last_mut().unwrap()[TOMBSTONE] = mark;
        }
        f.blocks[without][TERM] = NONE;
        f
    };
    for (number, id, marks, without) in [
        (0, 0, &[0][..], 0),
        (3, 1, &[0], 0),
        (3, 65533, &[0], 0),
        (0, 0, &[0, 0], 1),
        (3, 0, &[0, 0], 0),
        (3, 1, &[0, 0], 1),
        (0, 0, &[0, 1], 0),
        (3, 1, &[0, 1], 0),
        (0, 0, &[0, 1], 1),
        (0, 1, &[0, 1], 1),
        (0, 0, &[0, 1, 1], 0),
        (3, 0, &[0, 1, 0], 0),
        (0, 0, &[0, 1, 0], 2),
    ] {
        let name = format!("function {id}, tombstone marks {marks:?}, block {without} without a terminator");
        cases.add(number, name, &lacking(id, marks, without));
    }
}

/// "3 to 8 over its live blocks": nothing of this is judged of a tombstone.
fn tombstones(cases: &mut Cases) {
    // block 1: a parameter, a BinImm of it, a BranchCmpImm on it to block 0; rows 2, 3 and 4
    let mut f = smallest();
    let (param, dst) = (f.value(2, 4), f.value(3, 3));
    f.block(&[param]);
    f.instr(BIN_IMM, Some(dst), &[param], [0, 0, 0]);
    f.term(BRANCH_CMP_IMM, &[param], &[(0, &[]), (0, &[])], [8, 0]);
    cases.add(0, "block 1 as it should be", &f);
    let mut twice = |name: &str, change: &dyn Fn(&mut Function)| {
        let f = f.but(change);
        cases.add(3, format!("a block with {name}"), &f);
        cases.add(0, format!("a tombstone with {name}"), &f.but(|f| f.blocks[1][TOMBSTONE] = 1));
    };
    twice("id 7", &|f| f.blocks[1][ID] = 7);
    twice("parameters at 99", &|f| f.blocks[1][PARAMS_AT] = 99);
    twice("a value out of range", &|f| f.pool[0] = 9);
    twice("instructions from 99", &|f| f.blocks[1][FIRST] = 99);
    twice("operands at 99", &|f| f.blocks[1][TERM_OPERANDS_AT] = 99);
    twice("edges from 99", &|f| f.blocks[1][EDGES_FROM] = 99);
    twice("an edge to block 9", &|f| f.edges[0][TARGET] = 9);
    twice("an edge with an argument for no parameter", &|f| f.edges[1][ARGS] = 1);
    twice("BranchCmpImm IAdd", &|f| f.blocks[1][TERM_X] = 0);
    twice("BinImm into value 9", &|f| f.instrs[0][DST] = 10);
    twice("BinImm, operands at 99", &|f| f.instrs[0][OPERANDS_AT] = 99);
    twice("BinImm SEq", &|f| f.instrs[0][X] = 16);
    twice("no terminator", &|f| {
        f.blocks[1][TERM..].copy_from_slice(&[NONE, 0, 0, 0, 0, 0, 0, 0]);
    });
}
